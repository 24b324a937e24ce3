// What the browser keeps for the page: texts by their names.

export function stored(name: string) {
  try {
    return localStorage.getItem(name) ?? "";
  } catch {
    return "";
  }
}

/** Has the browser keep a text, and says whether it does. */
export function store(name: string, text: string) {
  try {
    localStorage.setItem(name, text);
    return true;
  } catch {
    // then it holds until the page is closed
    return false;
  }
}
