// Connections and files of node: the one module that needs node's own.
import fs from "node:fs";
import net from "node:net";
import tls from "node:tls";

/** What a file has, that an address names. */
export const textIn = (path) => fs.readFileSync(path, "latin1");

const FINAL = /CERT|SIGNED|VERIFY|ENOTFOUND/; // of a fault's code: trying again can't mend it

/**
 * A connection. `secure`: TLS, by true or by what `tls.connect` takes. Calls `opened`, `received` with each block as a string of its bytes,
 * and `lost` once, with what was wrong and whether trying again can't mend it. `hold`: whether the process waits for it.
 */
export function dial({ host, port, secure }, { opened, received, lost }) {
  const servername = net.isIP(host) ? undefined : host;
  const socket = secure ? tls.connect({ host, port, servername, ...(secure === true ? {} : secure) }) : net.connect({ host, port });
  socket.setNoDelay(true).setEncoding("latin1");
  socket.on(secure ? "secureConnect" : "connect", opened).on("data", received);
  socket.on("error", (fault) => lost(fault.message || fault.code, FINAL.test(fault.code))).on("close", () => lost("the server ended the session", false));
  return { pause: () => socket.pause(), resume: () => socket.resume(), send: (bytes) => socket.write(bytes, "latin1"), close: () => socket.destroy(), hold: (isHeld) => (isHeld ? socket.ref() : socket.unref()) };
}
