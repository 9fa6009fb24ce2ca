// Questions to the service of the page: JSON there, and JSON back, line by line where the answer grows.

export class ServiceFault extends Error {
  constructor(status, told) {
    super(told?.text ?? `status ${status}`);
    Object.assign(this, { status, told });
  }
}

/** What the service answers; `signal` gives the question up. */
async function answer(path, { method = "GET", body, signal } = {}) {
  const json = body !== undefined && !(body instanceof Uint8Array);
  const told = await fetch(path, {
    method,
    signal,
    headers: body === undefined ? {} : { "Content-Type": json ? "application/json" : "application/octet-stream" },
    body: json ? JSON.stringify(body) : body,
    cache: "no-store",
  });
  if (!told.ok) throw new ServiceFault(told.status, await told.json().catch(() => null));
  return told;
}

export const question = async (path, words) => (await answer(path, words)).json();

/** Calls `heard` with each line of the answer, as soon as it is there. */
export async function lines(path, words, heard) {
  const reader = (await answer(path, words)).body.getReader(), decoder = new TextDecoder();
  let kept = "";
  for (;;) {
    const { done, value } = await reader.read();
    if (done) return;
    kept += decoder.decode(value, { stream: true });
    for (let end = kept.indexOf("\n"); end >= 0; end = kept.indexOf("\n")) {
      const line = kept.slice(0, end);
      kept = kept.slice(end + 1);
      if (line.trim()) heard(JSON.parse(line));
    }
  }
}

/** Waits so long; ends at once where the signal says so. */
export const pause = (seconds, signal) =>
  new Promise((done) => {
    const timer = setTimeout(done, 1000 * seconds);
    signal?.addEventListener("abort", () => {
      clearTimeout(timer);
      done();
    });
  });
