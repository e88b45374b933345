// Elements of the page.

export const at = (id) => document.getElementById(id);

export const element = (tag, text = "") => Object.assign(document.createElement(tag), { textContent: text });

/** A button, with a label if its text alone doesn't say what it does. */
export function button(text, press, label = "") {
  const made = element("button", text);
  made.type = "button";
  made.onclick = press;
  if (label) made.setAttribute("aria-label", label);
  return made;
}
