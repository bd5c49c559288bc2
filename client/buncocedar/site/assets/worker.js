// In a worker: files are fetched, and each message is a call of the searcher. Elsewhere the page calls it itself.

async function fetched(name, progress = () => {}) {
  const reply = await fetch(name);
  if (!reply.ok) throw new Error(`${name}: ${reply.status} ${reply.statusText}`);
  const pieces = [];
  for (const reader = reply.body.getReader(); ; ) {
    const { done, value } = await reader.read();
    if (done) break;
    pieces.push(value);
    progress(value.length);
  }
  return new Uint8Array(await new Blob(pieces).arrayBuffer());
}

async function begun(name, said) {
  const load = async (file, progress) => unpacked(await fetched(file.name, progress));
  const table = JSON.parse(new TextDecoder().decode(await load({ name })));
  const all = table.module.size + table.index.size;
  let done = 0;
  return Searcher.of(table, load, (bytes) => said({ done: (done += bytes), all }));
}

function serve(port) {
  let searcher = null;
  port.addEventListener("message", async ({ data: { id, call, argument } }) => {
    try {
      if (call === "begin") searcher = await begun(argument, (progress) => port.postMessage({ progress }));
      port.postMessage({ id, value: call === "begin" ? null : await searcher[call](argument) });
    } catch (reason) {
      port.postMessage({ id, reason: reason.message });
    }
  });
}

globalThis.buncoSearcher = { Module, Searcher, folded, unpacked };
if (typeof WorkerGlobalScope !== "undefined" && globalThis instanceof WorkerGlobalScope) serve(globalThis);
