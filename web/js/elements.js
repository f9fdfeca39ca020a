// Elements of the page, made by hand: no text ever becomes markup.

const SVG = "http://www.w3.org/2000/svg";

/** An element with attributes; a child is an element or a text. What is null is left out. */
function element(tag, attributes = {}, ...children) {
  return filled(document.createElement(tag), attributes, children);
}

/** An element of a drawing. */
function drawn(tag, attributes = {}, ...children) {
  return filled(document.createElementNS(SVG, tag), attributes, children);
}

function filled(it, attributes, children) {
  for (const [name, value] of Object.entries(attributes)) if (value !== null && value !== false) it.setAttribute(name, value === true ? "" : `${value}`);
  it.append(...children.flat().filter((child) => child !== null));
  return it;
}

function byId(id) {
  return document.getElementById(id);
}

/** The class words of something that may have changed since the step before. */
function classWords(words, hasChanged) {
  return hasChanged ? `${words} changed` : words;
}

/** The colour of a seat, of which there are eight; that of a group is another one. */
function colourOf(entity) {
  return entity < OF_GROUPS ? `seat-${entity % 8}` : "of-group";
}

// The size of letters for which drawings are made, in pixels.
const USUAL_PRINT = 13;
// How wide a drawing is where the page is not shown, or before it has its place.
const USUAL_WIDE = 560;

/** How wide a drawing in an element must be, in units that grow with the print, so that its letters are as large as those around it. */
function wideIn(it) {
  const style = getComputedStyle(it), pixels = it.clientWidth - parseFloat(style.paddingLeft) - parseFloat(style.paddingRight);
  const print = parseFloat(getComputedStyle(document.documentElement).fontSize);
  return pixels > 0 ? Math.floor((pixels * USUAL_PRINT) / print) : USUAL_WIDE;
}
