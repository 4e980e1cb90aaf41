// What a browser measures of a page at whose end this is put, as the page's title: whether the colours are light or dark, the width
// of the window, what reaches out of it, and the texts that are hard to read on what is behind them (with a contrast below 4.5, the
// least that WCAG 2 allows for its level AA).
for (const it of document.querySelectorAll("details")) it.open = true;
const width = document.documentElement.clientWidth;
const scrolls = it => it && (getComputedStyle(it).overflowX === "auto" || scrolls(it.parentElement));
const seen = it => it.getClientRects().length > 0 && !it.closest(".hidden");
const wide = [...document.body.querySelectorAll("*")]
  .filter(it => seen(it) && it.getBoundingClientRect().right > width + 1 && !scrolls(it.parentElement));
const parts = colour => colour.match(/[\d.]+/g).map(Number);
const light = ([r, g, b]) => {
  const [x, y, z] = [r, g, b].map(c => (c /= 255) <= 0.04045 ? c / 12.92 : ((c + 0.055) / 1.055) ** 2.4);
  return 0.2126 * x + 0.7152 * y + 0.0722 * z;
};
const behind = it => {
  for (; it; it = it.parentElement) {
    const colour = parts(getComputedStyle(it).backgroundColor);
    if (colour.length < 4 || colour[3] > 0) return colour;
  }
  return [255, 255, 255];
};
const filled = it => {
  const shape = it.parentElement.querySelector("ellipse");
  return shape ? parts(getComputedStyle(shape).fill) : behind(it);
};
const contrast = it => {
  const drawn = it instanceof SVGElement;
  const colours = [parts(getComputedStyle(it)[drawn ? "fill" : "color"]), drawn ? filled(it) : behind(it)].map(light);
  return (Math.max(...colours) + 0.05) / (Math.min(...colours) + 0.05);
};
const texts = [...document.querySelectorAll("header *, main *, footer *")]
  .filter(it => seen(it) && [...it.childNodes].some(node => node.nodeType === 3 && node.data.trim()));
const faint = texts.filter(it => contrast(it) < 4.5);
const named = (what, list) => `${list.length || "nothing"} ${what}` +
  list.slice(0, 2).map(it => ` <${it.tagName}> ${it.textContent.replace(/\s+/g, " ").slice(0, 30)}`).join("");
const beyond = document.documentElement.scrollWidth > width ? [document.documentElement] : [];
document.title = `${matchMedia("(prefers-color-scheme: dark)").matches ? "dark" : "light"} ${width}, ` +
  `${texts.length > 10 ? "texts" : "no texts"}: ${named("too wide", [...beyond, ...wide])}, ${named("faint", faint)}`;
