// Elements and their texts. What comes from texts is only ever put in as text (textContent, append), never as HTML.

export const at = (id) => document.getElementById(id);

export function element(name, text, ...classes) {
  const made = document.createElement(name);
  if (text !== undefined) made.textContent = text;
  made.classList.add(...classes);
  return made;
}

export function button(words, press) {
  const made = element("button", words);
  made.type = "button";
  made.addEventListener("click", press);
  return made;
}

// Sets a text only if it is another one, so that nothing is read out twice.
export function replaceText(node, text) {
  if (node.textContent !== text) node.textContent = text;
}

export const counted = (number, word, many = `${word}s`) => `${number.toLocaleString("en")} ${number === 1 ? word : many}`;
