"use strict";
(function () {
  const at = (id) => document.getElementById(id);
  const facts = JSON.parse(at("facts").textContent);
  const bytesOf = (id) => Uint8Array.from(atob(at(id).textContent.trim()), (c) => c.charCodeAt(0));
  const wave = bytesOf("wave-data"), input = bytesOf("input-data");

  // ---- SHA-256, as FIPS 180-4 has it, so that it also works where the browser offers none
  function sha256(data) {
    const primes = [], first = (x) => Math.floor((x - Math.floor(x)) * 4294967296);
    for (let n = 2; primes.length < 64; n++) if (primes.every((p) => n % p)) primes.push(n);
    const k = primes.map((p) => first(Math.cbrt(p))), h = primes.slice(0, 8).map((p) => first(Math.sqrt(p)));
    const length = (data.length + 9 + 63) & ~63, block = new Uint8Array(length), view = new DataView(block.buffer);
    block.set(data);
    block[data.length] = 128;
    view.setUint32(length - 8, Math.floor(data.length / 536870912));
    view.setUint32(length - 4, data.length << 3);
    const w = new Int32Array(64), turn = (x, n) => (x >>> n) | (x << (32 - n));
    for (let from = 0; from < length; from += 64) {
      for (let i = 0; i < 64; i++) {
        if (i < 16) { w[i] = view.getInt32(from + 4 * i); continue; }
        const a = w[i - 15], b = w[i - 2];
        w[i] = w[i - 16] + (turn(a, 7) ^ turn(a, 18) ^ (a >>> 3)) + w[i - 7] + (turn(b, 17) ^ turn(b, 19) ^ (b >>> 10));
      }
      let [a, b, c, d, e, f, g, last] = h;
      for (let i = 0; i < 64; i++) {
        const one = (last + (turn(e, 6) ^ turn(e, 11) ^ turn(e, 25)) + ((e & f) ^ (~e & g)) + k[i] + w[i]) | 0;
        const two = ((turn(a, 2) ^ turn(a, 13) ^ turn(a, 22)) + ((a & b) ^ (a & c) ^ (b & c))) | 0;
        last = g; g = f; f = e; e = (d + one) | 0; d = c; c = b; b = a; a = (one + two) | 0;
      }
      [a, b, c, d, e, f, g, last].forEach((x, i) => { h[i] = (h[i] + x) | 0; });
    }
    return h.map((x) => (x >>> 0).toString(16).padStart(8, "0")).join("");
  }

  // ---- the samples, from the WAVE file itself
  function samples(file) {
    const view = new DataView(file.buffer), count = view.getUint16(22, true);
    let place = 12;
    while (String.fromCharCode(...file.subarray(place, place + 4)) !== "data") place += 8 + view.getUint32(place + 4, true);
    const frames = view.getUint32(place + 4, true) / (4 * count), channels = [];
    for (let c = 0; c < count; c++) channels.push(Float32Array.from({ length: frames }, (_, i) => view.getFloat32(place + 8 + 4 * (i * count + c), true)));
    return channels;
  }
  const channels = samples(wave);
  let shown = channels[0], from = 0, count = Math.max(1, facts.frames);

  const link = (id, data, name, type) => {
    const url = URL.createObjectURL(new Blob([data], { type }));
    at(id).href = url;
    at(id).download = name;
    return url;
  };
  at("audio").src = link("save", wave, facts.name + ".wav", "audio/wav");
  link("save-input", input, facts.name + facts.suffix, "text/plain");
  at("input").textContent = new TextDecoder().decode(input);

  // ---- pictures
  function drawWave() {
    const canvas = at("wave"), pen = canvas.getContext("2d"), wide = canvas.width, high = canvas.height - 14;
    let most = 0;
    for (const x of shown) if (isFinite(x)) most = Math.max(most, Math.abs(x));
    most = most || 1;
    pen.fillStyle = "#fff";
    pen.fillRect(0, 0, wide, canvas.height);
    pen.strokeStyle = "#ddd";
    pen.beginPath(); pen.moveTo(0, high / 2); pen.lineTo(wide, high / 2); pen.stroke();
    pen.fillStyle = "#2c5f8a";
    const y = (x) => high / 2 - (x / most) * (high / 2 - 2);
    for (let column = 0; column < wide; column++) {
      const a = Math.floor(from + (column * count) / wide), b = Math.max(a + 1, Math.floor(from + ((column + 1) * count) / wide));
      let low = Infinity, top = -Infinity;
      for (let i = a; i < b && i < shown.length; i++) { if (shown[i] < low) low = shown[i]; if (shown[i] > top) top = shown[i]; }
      if (top >= low) pen.fillRect(column, y(top), 1, Math.max(1, y(low) - y(top)));
    }
    pen.fillStyle = "#d08a3c";
    for (const [start, frames] of facts.bars) {
      const x = ((start - from) / count) * wide;
      pen.fillRect(x, high + 4, Math.max(1.5, (frames / count) * wide - 1), 8);
    }
    pen.fillStyle = "#333";
    pen.font = "12px sans-serif";
    pen.fillText(most.toPrecision(4), 4, 12);
  }

  function fft(re, im) {
    const n = re.length;
    for (let i = 1, j = 0; i < n; i++) {
      let bit = n >> 1;
      for (; j & bit; bit >>= 1) j ^= bit;
      j ^= bit;
      if (i < j) { [re[i], re[j]] = [re[j], re[i]]; [im[i], im[j]] = [im[j], im[i]]; }
    }
    for (let size = 2; size <= n; size *= 2) {
      for (let k = 0; k < size / 2; k++) {
        const c = Math.cos((-2 * Math.PI * k) / size), s = Math.sin((-2 * Math.PI * k) / size);
        for (let i = k; i < n; i += size) {
          const j = i + size / 2, x = re[j] * c - im[j] * s, z = re[j] * s + im[j] * c;
          re[j] = re[i] - x; im[j] = im[i] - z; re[i] += x; im[i] += z;
        }
      }
    }
  }

  function drawSpectrum() {
    const canvas = at("spectrum"), pen = canvas.getContext("2d"), wide = canvas.width, high = canvas.height;
    const size = count > 8192 ? 1024 : count > 1024 ? 512 : 256, image = pen.createImageData(wide, high);
    const hann = Float64Array.from({ length: size }, (_, i) => 0.5 - 0.5 * Math.cos((2 * Math.PI * i) / size));
    const levels = new Float32Array(wide * high);
    let most = 1e-12;
    for (let column = 0; column < wide; column++) {
      const middle = Math.floor(from + ((column + 0.5) * count) / wide), re = new Float64Array(size), im = new Float64Array(size);
      for (let i = 0; i < size; i++) { const x = shown[middle - size / 2 + i]; re[i] = isFinite(x) ? x * hann[i] : 0; }
      fft(re, im);
      for (let row = 0; row < high; row++) {
        const bin = Math.floor(((high - 1 - row) / high) * (size / 2)), power = re[bin] * re[bin] + im[bin] * im[bin];
        levels[row * wide + column] = power;
        if (power > most) most = power;
      }
    }
    for (let i = 0; i < levels.length; i++) {
      const x = Math.max(0, 1 + (10 * Math.log10(levels[i] / most + 1e-12)) / 60);
      image.data[4 * i] = 255 * Math.min(1, 1.6 * x * x);
      image.data[4 * i + 1] = 255 * Math.min(1, x * x * 0.95);
      image.data[4 * i + 2] = 255 * Math.min(1, 0.18 + 0.9 * x * (1 - 0.7 * x));
      image.data[4 * i + 3] = 255;
    }
    pen.putImageData(image, 0, 0);
    pen.fillStyle = "#fff";
    pen.font = "12px sans-serif";
    for (const part of [0.25, 0.5, 0.75]) pen.fillText(Math.round((facts.rate / 2) * part) + " Hz", 4, high * (1 - part));
  }

  function show(start, length) {
    count = Math.min(facts.frames || 1, Math.max(64, Math.round(length)));
    from = Math.max(0, Math.min((facts.frames || 1) - count, Math.round(start)));
    drawWave();
    drawSpectrum();
    at("view").textContent = (from / facts.rate).toFixed(4) + " s to " + ((from + count) / facts.rate).toFixed(4) + " s";
  }
  const zoom = (by, place) => show(from + place * count * (1 - by), count * by);
  at("in").onclick = () => zoom(0.5, 0.5);
  at("out").onclick = () => zoom(2, 0.5);
  at("earlier").onclick = () => show(from - count / 2, count);
  at("later").onclick = () => show(from + count / 2, count);
  at("all").onclick = () => show(0, facts.frames);
  const keys = { "+": "in", "=": "in", "-": "out", ArrowLeft: "earlier", ArrowRight: "later", Home: "all" };
  for (const id of ["wave", "spectrum"]) {
    at(id).addEventListener("keydown", (e) => { if (keys[e.key]) { at(keys[e.key]).click(); e.preventDefault(); } });
    at(id).addEventListener("wheel", (e) => { if (e.ctrlKey) { zoom(e.deltaY < 0 ? 0.7 : 1 / 0.7, e.offsetX / at(id).clientWidth); e.preventDefault(); } }, { passive: false });
    at(id).addEventListener("dblclick", (e) => { zoom(0.5, e.offsetX / at(id).clientWidth); });
  }
  if (channels.length > 1) {
    at("which").hidden = false;
    channels.forEach((_, i) => at("channel").add(new Option(String(i + 1), String(i))));
    at("channel").onchange = () => { shown = channels[Number(at("channel").value)]; show(from, count); };
  }

  // ---- whether this is what is cited, by the line above the button
  const cited = (name) => (at("citation").textContent.match(new RegExp(name + "-sha256=([0-9a-f]{64})")) || ["", "nothing"])[1];
  at("check").onclick = () => {
    const file = sha256(wave), text = sha256(input), same = file === cited("file") && text === cited("input");
    at("verdict").className = same ? "good" : "bad";
    at("verdict").textContent = same
      ? "Yes: the WAVE file's SHA-256 is " + file + ", and the input's " + text + ", as cited."
      : "No: " + (file === cited("file") ? "the input's SHA-256 is " + text + ", and " + cited("input") : "the WAVE file's SHA-256 is " + file + ", and " + cited("file")) + " is cited.";
  };
  show(0, facts.frames);
})();
