// What this browser's WebAssembly can do.

/** Whether a program that waits for input can be suspended (JavaScript Promise Integration). */
export const canSuspend = "Suspending" in WebAssembly && "promising" in WebAssembly;
