// The steps by their names.

/** In the module's order. */
export const STEPS = Object.freeze([
  "eofb", "eorl", "eoud",
  "drud-eofb", "drrl-eofb", "drud-eorl", "drfb-eorl", "drrl-eoud", "drfb-eoud",
  "eo", "dr-eofb", "dr-eorl", "dr-eoud",
] as const);

export type Step = typeof STEPS[number];

/** What calls take as a step: tsc refuses a literal that names none; the call judges a string that tsc doesn't know. */
export type StepName<Name extends string> = Name & (string extends Name ? string : Name extends Step ? string : never);

export const isStep = (name: unknown): name is Step => STEPS.some((step) => step === name);

/** The step that has to hold before another one: the orientation that a reduction keeps, null before an orientation. */
export function startOf<Name extends string>(step: StepName<Name>): Step | null {
  if (typeof step !== "string") throw new TypeError("the step is no string");
  if (!isStep(step)) throw new RangeError(`there is no step of the name ${JSON.stringify(step)}`);
  const start = step.slice(step.indexOf("-") + 1);
  return isStep(start) && start !== step ? start : null;
}
