// Small functions for the page's elements.

/**
 * The element of this id, of this kind.
 * @template {HTMLElement} T
 * @param {string} id
 * @param {new () => T} kind
 * @returns {T}
 */
export function byId(id, kind) {
  const found = document.getElementById(id);
  if (!(found instanceof kind)) throw new Error(`no ${id}`);
  return found;
}

/** @param {string} id */
export const input = (id) => byId(id, HTMLInputElement);
/** @param {string} id */
export const select = (id) => byId(id, HTMLSelectElement);
/** @param {string} id */
export const any = (id) => byId(id, HTMLElement);

/**
 * A new element with its text, its children and some attributes.
 * @param {string} name
 * @param {Record<string, string>} attributes
 * @param {(Node | string)[]} children
 */
export function make(name, attributes = {}, ...children) {
  const made = document.createElement(name);
  for (const [key, value] of Object.entries(attributes)) made.setAttribute(key, value);
  made.append(...children);
  return made;
}

/**
 * Calls a function once before the next picture of the page, however often it is asked to.
 * @param {() => void} does
 */
export function once(does) {
  let waits = false;
  return () => {
    if (waits) return;
    waits = true;
    requestAnimationFrame(() => {
      waits = false;
      does();
    });
  };
}

/**
 * Tabs by the keys that one expects.
 * @param {HTMLElement} list
 * @param {(tab: HTMLElement) => void} chosen
 */
export function tabs(list, chosen) {
  /** @param {HTMLElement} tab */
  const choose = (tab) => {
    for (const other of list.querySelectorAll("[role=tab]")) {
      other.setAttribute("aria-selected", String(other === tab));
      other.setAttribute("tabindex", other === tab ? "0" : "-1");
    }
    chosen(tab);
  };
  list.addEventListener("click", (event) => {
    const tab = event.target instanceof HTMLElement && event.target.closest("[role=tab]");
    if (tab instanceof HTMLElement) choose(tab);
  });
  list.addEventListener("keydown", (event) => {
    const all = /** @type {HTMLElement[]} */ ([...list.querySelectorAll("[role=tab]")].filter((tab) => !(/** @type {HTMLElement} */ (tab).hidden)));
    const at = all.indexOf(/** @type {HTMLElement} */ (document.activeElement));
    const to = { ArrowRight: at + 1, ArrowLeft: at - 1, Home: 0, End: all.length - 1 }[event.key];
    if (to === undefined || at < 0) return;
    event.preventDefault();
    const tab = all[(to + all.length) % all.length];
    tab.focus();
    choose(tab);
  });
  return choose;
}

/**
 * Hands a file to the user.
 * @param {Uint8Array} bytes
 * @param {string} name
 */
export function save(bytes, name) {
  const link = document.createElement("a");
  link.href = URL.createObjectURL(new Blob([/** @type {BlobPart} */ (bytes)], { type: "application/octet-stream" }));
  link.download = name;
  link.click();
  setTimeout(() => URL.revokeObjectURL(link.href), 10000);
}

/**
 * Hears the whole number that is put into a field, kept within its bounds; of an empty one nothing.
 * @param {HTMLInputElement} field
 * @param {(number: number) => void} heard
 */
export function onNumber(field, heard) {
  field.addEventListener("input", () => {
    const value = Math.round(Number(field.value));
    if (field.value !== "" && Number.isFinite(value)) heard(Math.min(Math.max(value, Number(field.min)), Number(field.max)));
  });
}
