// Headless Chromium, driven over its debugging pipe with nothing but node: open a page, run script in it, press keys, take a picture.
import { spawn } from "node:child_process";
import fs from "node:fs";
import os from "node:os";
import path from "node:path";

export async function browse(program, file, { width = 1280, height = 900, dark = false } = {}) {
  const folder = fs.mkdtempSync(path.join(os.tmpdir(), "planner-"));
  const child = spawn(program, ["--headless=new", "--remote-debugging-pipe", "--no-sandbox", "--disable-gpu", "--no-first-run",
      "--hide-scrollbars", `--user-data-dir=${folder}/profile`, "about:blank"],
    { stdio: ["ignore", "ignore", "ignore", "pipe", "pipe"] });
  const waiting = new Map(), heard = [];
  let id = 0, rest = "";
  child.stdio[4].on("data", (data) => {
    const parts = (rest + data).split("\0");
    rest = parts.pop();
    for (const part of parts) {
      const message = JSON.parse(part);
      if (message.id) {
        waiting.get(message.id)(message);
        waiting.delete(message.id);
      } else heard.push(message);
    }
  });
  const gone = new Promise((_, reject) => child.on("error", reject));
  const call = (method, params = {}, sessionId) => Promise.race([gone, new Promise((resolve, reject) => {
    waiting.set(++id, (message) => (message.error ? reject(new Error(`${method}: ${message.error.message}`)) : resolve(message.result)));
    child.stdio[3].write(JSON.stringify({ id, method, params, sessionId }) + "\0");
  })]);
  const { targetId } = await call("Target.createTarget", { url: "about:blank" });
  const { sessionId } = await call("Target.attachToTarget", { targetId, flatten: true });
  const send = (method, params) => call(method, params, sessionId);

  const page = {
    folder,
    version: (await call("Browser.getVersion")).product,
    // A value of the page's own script; what it throws is thrown here.
    async run(script) {
      const { result, exceptionDetails } = await send("Runtime.evaluate", { expression: script, awaitPromise: true, returnByValue: true });
      if (exceptionDetails) throw new Error(`in the page: ${exceptionDetails.exception?.description ?? exceptionDetails.text}\n${script}`);
      return result.value;
    },
    async until(script, what = script) {
      for (let n = 0; n < 200; n++) {
        if (await page.run(script)) return;
        await new Promise((go) => setTimeout(go, 25));
      }
      throw new Error(`it did not come to: ${what}`);
    },
    // A key as a user presses it; with `text` it types that.
    async key(key, { alt = false, control = false, shift = false, text } = {}) {
      const codes = { Tab: 9, Enter: 13, Escape: 27, " ": 32, End: 35, Home: 36, ArrowLeft: 37, ArrowUp: 38, ArrowRight: 39,
          ArrowDown: 40, Backspace: 8, Delete: 46 };
      const words = { key, code: key.length === 1 ? `Key${key.toUpperCase()}` : key,
          windowsVirtualKeyCode: codes[key] ?? key.toUpperCase().charCodeAt(0),
        modifiers: (alt ? 1 : 0) + (control ? 2 : 0) + (shift ? 8 : 0) };
      if (key === "Enter") text = "\r";
      if (key === " ") Object.assign(words, { code: "Space" }, { text: " " });
      await send("Input.dispatchKeyEvent", { type: text || key === " " ? "keyDown" : "rawKeyDown", ...words, text: text ?? words.text });
      await send("Input.dispatchKeyEvent", { type: "keyUp", ...words });
    },
    async type(text) {
      await send("Input.insertText", { text });
    },
    async size(w, h = height) {
      await send("Emulation.setDeviceMetricsOverride", { width: w, height: h, deviceScaleFactor: 1, mobile: false });
    },
    async scheme(name) {
      await send("Emulation.setEmulatedMedia", { media: name === "print" ? "print" : "",
          features: [{ name: "prefers-color-scheme", value: name === "dark" ? "dark" : "light" }] });
    },
    async picture(to, { clip, whole = false } = {}) {
      const { data } = await send("Page.captureScreenshot", { format: "png", captureBeyondViewport: whole || !!clip, clip: clip
          ? { ...clip, scale: 1 } : undefined });
      fs.writeFileSync(to, Buffer.from(data, "base64"));
    },
    async give(selector, file) {
      const { root } = await send("DOM.getDocument");
      const { nodeId } = await send("DOM.querySelector", { nodeId: root.nodeId, selector });
      await send("DOM.setFileInputFiles", { nodeId, files: [file] });
    },
    // Each control that can have the focus, by its role and the name that a screen reader says.
    async names() {
      const { nodes } = await send("Accessibility.getFullAXTree");
      const is = (node, name) => node.properties?.some((x) => x.name === name && x.value.value === true);
      return nodes.filter((node) => !node.ignored && is(node, "focusable") && node.role.value !== "RootWebArea")
        .map((node) => [node.role.value, (node.name?.value ?? "").trim()]);
    },
    // What the page wrote to the console as an error, or threw.
    faults: () => heard.filter((m) => m.method === "Runtime.exceptionThrown"
        || (m.method === "Log.entryAdded" && m.params.entry.level === "error"))
      .map((m) => JSON.stringify(m.params).slice(0, 400)),
    async close() {
      await call("Browser.close").catch(() => {});
      await new Promise((go) => (child.exitCode !== null ? go() : child.on("exit", go)));
      fs.rmSync(folder, { recursive: true, force: true, maxRetries: 5 });
    },
  };
  await send("Runtime.enable");
  await send("Log.enable");
  await send("Page.enable");
  fs.mkdirSync(`${folder}/saved`);
  await call("Browser.setDownloadBehavior", { behavior: "allow", downloadPath: `${folder}/saved` });
  await page.size(width);
  await page.scheme(dark ? "dark" : "light");
  await send("Page.navigate", { url: "file://" + path.resolve(file) });
  await page.until('document.body && document.body.dataset.ready === "yes"', "a page that is ready");
  return page;
}
