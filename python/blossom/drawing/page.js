"use strict";
(() => {
  const proof = JSON.parse(document.getElementById("data").textContent);
  const picture = document.querySelector("#picture svg");
  const told = document.getElementById("told");
  const units = BigInt(proof.units);
  const [x, y, width, height] = picture.getAttribute("viewBox").split(" ").map(Number);
  let view = { x, y, width, height };

  // Numbers: integers, of which so many make a unit of weight.
  const gcd = (a, b) => (b === 0n ? (a < 0n ? -a : a) : gcd(b, a % b));
  const shown = (number, of = units) => {
    const common = gcd(number, of) || 1n;
    const [above, below] = [number / common, of / common];
    if (below === 1n) return String(above);
    if (1000000n % below !== 0n) return "\u2248 " + (Number(above) / Number(below)).toPrecision(9);
    const digits = String(((above < 0n ? -above : above) * (1000000n / below))).padStart(7, "0");
    const text = digits.slice(0, -6) + "." + digits.slice(-6).replace(/0+$/, "");
    return (above < 0n ? "-" : "") + text;
  };

  // The picture: drag it, turn the wheel over it, or use the buttons.
  const show = () => picture.setAttribute("viewBox", [view.x, view.y, view.width, view.height].join(" "));
  const place = (event) => {
    const matrix = picture.getScreenCTM().inverse();
    return new DOMPoint(event.clientX, event.clientY).matrixTransform(matrix);
  };
  const zoom = (factor, at) => {
    view = {
      x: at.x - (at.x - view.x) * factor,
      y: at.y - (at.y - view.y) * factor,
      width: view.width * factor,
      height: view.height * factor,
    };
    show();
  };
  const middle = () => ({ x: view.x + view.width / 2, y: view.y + view.height / 2 });
  let held = null;
  picture.addEventListener("wheel", (event) => {
    event.preventDefault();
    zoom(event.deltaY > 0 ? 1.2 : 1 / 1.2, place(event));
  }, { passive: false });
  picture.addEventListener("pointerdown", (event) => {
    held = place(event);
    picture.setPointerCapture(event.pointerId);
    picture.classList.add("moving");
  });
  picture.addEventListener("pointermove", (event) => {
    if (held === null) return;
    const now = place(event);
    view = { ...view, x: view.x + held.x - now.x, y: view.y + held.y - now.y };
    show();
  });
  const drop = () => {
    held = null;
    picture.classList.remove("moving");
  };
  picture.addEventListener("pointerup", drop);
  picture.addEventListener("pointercancel", drop);
  document.getElementById("nearer").addEventListener("click", () => zoom(1 / 1.4, middle()));
  document.getElementById("farther").addEventListener("click", () => zoom(1.4, middle()));
  document.getElementById("whole").addEventListener("click", () => {
    view = { x, y, width, height };
    show();
  });

  // Hovering: over a part of the picture, or over a line of the proof.
  const light = (part, on) => {
    document.querySelectorAll(`[data-part="${part}"]`).forEach((one) => one.classList.toggle("lit", on));
    told.textContent = on ? proof.parts[part] ?? "" : "";
  };
  const hover = (where) => {
    where.addEventListener("pointerover", (event) => {
      const one = event.target.closest("[data-part]");
      if (one !== null) light(one.dataset.part, true);
    });
    where.addEventListener("pointerout", (event) => {
      const one = event.target.closest("[data-part]");
      if (one !== null) light(one.dataset.part, false);
    });
  };
  hover(picture);

  // The proof: its lines, and the button that adds them up.
  const lines = document.getElementById("lines");
  if (lines === null) return;
  hover(lines);
  for (const [text, times, part] of proof.lines) {
    const row = lines.insertRow();
    if (part !== "") row.dataset.part = part;
    row.insertCell().textContent = text;
    const number = row.insertCell();
    number.textContent = shown(BigInt(times));
    number.className = "number";
  }
  const sumOf = (numbers) => numbers.reduce((sum, one) => sum + BigInt(one), 0n);
  const heavy = () => proof.edges.filter(([, weight, meets]) => sumOf(meets) > BigInt(weight));
  const loose = () => proof.edges.filter(([, weight, meets, used]) => used > 0 && sumOf(meets) !== BigInt(weight));

  const add = () => {
    const sum = sumOf(proof.lines.map(([, times]) => times));
    const [factor, constant, divisor] = proof.follows.map(BigInt);
    const weight = factor * sum + constant;
    const follows = weight === BigInt(proof.weight) * divisor;
    document.getElementById("sum").textContent = shown(sum);
    document.getElementById("weight").textContent = shown(weight, units * divisor);
    const said = document.getElementById("conclusion");
    const holds = follows && heavy().length === 0 && loose().length === 0;
    said.textContent = holds ? proof.conclusion.replace("{sum}", shown(sum))
      .replace("{weight}", shown(weight, units * divisor)) : "The lines do not prove the answer.";
    said.classList.toggle("fails", !holds);
    document.querySelectorAll("#lines tr").forEach((row) => row.classList.add("added"));
    const tested = document.getElementById("edges");
    tested.textContent = proof.edges.length === 0 ? "" :
      `In the sum ${proof.edges.length - heavy().length} of ${proof.edges.length} edges have at most their weight.`;
  };
  document.getElementById("add").addEventListener("click", add);
})();
