// Where the focus goes with the answers to a change: it stays where it went meanwhile.

/** The first row of the list, or the first cell of the table. */
export type Where = "list" | "table";

const SOON_ENOUGH = 1000;

export class NextFocus {
  #next: { to: Where; from: Element | null } | null = null;

  set(to: Where | undefined) {
    this.#next = to ? { to, from: document.activeElement } : null;
  }

  /** Waits for what is to be shown, if that comes soon; later it goes nowhere once something is pressed or scrolled. */
  async isSoon(shown: Promise<void>) {
    await Promise.race([shown, new Promise((end) => setTimeout(end, SOON_ENOUGH))]);
    const next = this.#next;
    const end = () => next === this.#next && this.set(undefined);
    for (const use of ["pointerdown", "wheel"]) addEventListener(use, end, { capture: true, once: true });
  }

  waitsFor = (to: Where) => this.#next?.to === to;

  take(to: Where): boolean {
    if (this.#next?.to !== to) return false;
    const { from } = this.#next;
    const at = document.activeElement;
    this.#next = null;
    // a row that was drawn anew meanwhile has another button in the place of the one that was pressed
    const control = from?.isConnected ? undefined : from?.dataset.control;
    return at === from || at === document.body || (control !== undefined && at?.dataset.control === control);
  }
}
