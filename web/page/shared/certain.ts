// What is certain to be there, though its type doesn't say so: whoever is wrong about that is told at once.

export function present<Value>(value: Value | null | undefined): Value {
  if (value === null || value === undefined) throw new Error("something is missing");
  return value;
}

export const lastOf = <Each>(all: readonly Each[]): Each => present(all[all.length - 1]);

/** The fields of what came from outside; none of what is no object. */
export const fieldsOf = (value: unknown): Record<string, unknown> =>
  (value !== null && typeof value === "object" ? value as Record<string, unknown> : {});

export const thrownError = (thrown: unknown): Error => (thrown instanceof Error ? thrown : new Error(String(thrown)));
