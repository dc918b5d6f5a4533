// What render/mod.rs gives its children: the type, `adsr` by its text, and a stand-in for
// `eval_value`, whose own code is not there. A constant is that number at every frame; a curve holds
// its values.
use crate::dsl::{Adsr, Value};

pub(crate) use osc::{osc, poly_blep};

pub type Signal = Vec<f32>;

include!(concat!(env!("OUT_DIR"), "/adsr.rs"));

pub(super) fn eval_value(v: &Value, n: usize, _sr: u32) -> Vec<f32> {
    match v {
        Value::Const(x) => vec![*x; n],
        Value::Note(_) => panic!("no note names"),
        Value::Modulated(curve) => curve[..n].to_vec(),
    }
}
