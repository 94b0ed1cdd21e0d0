// A headless browser over its debugging protocol, through a pipe: messages are JSON that ends with a zero byte.
import { spawn } from 'node:child_process';
import { mkdtempSync, rmSync, writeFileSync } from 'node:fs';
import { tmpdir } from 'node:os';
import { join } from 'node:path';

const pause = (time) => new Promise((done) => setTimeout(done, time));

/** Starts the browser and opens an address in a window of a size, light or dark. */
export async function open(browser, address, { width = 1400, height = 900, dark = false } = {}) {
  const profile = mkdtempSync(join(tmpdir(), 'browser-'));
  const flags = ['--headless=new', '--no-sandbox', '--disable-gpu', '--remote-debugging-pipe', '--no-first-run',
    '--hide-scrollbars', `--user-data-dir=${profile}`, `--window-size=${width},${height}`];
  const child = spawn(browser, flags, { stdio: ['ignore', 'ignore', 'ignore', 'pipe', 'pipe'] });
  const [, , , input, output] = child.stdio;
  const open = new Map();
  let text = '';
  let number = 0;
  output.setEncoding('utf8');
  output.on('data', (piece) => {
    const parts = (text + piece).split('\0');
    text = parts.pop();
    for (const part of parts) {
      const { id, result, error } = JSON.parse(part);
      if (!open.has(id)) continue;
      const { done, failed } = open.get(id);
      open.delete(id);
      if (error) failed(new Error(error.message));
      else done(result);
    }
  });
  let session;
  const call = (method, params = {}) => new Promise((done, failed) => {
    number += 1;
    open.set(number, { done, failed });
    input.write(`${JSON.stringify({ id: number, method, params, sessionId: session })}\0`);
  });
  const { targetId } = await call('Target.createTarget', { url: 'about:blank' });
  session = (await call('Target.attachToTarget', { targetId, flatten: true })).sessionId;
  const features = [{ name: 'prefers-color-scheme', value: dark ? 'dark' : 'light' }];
  await call('Emulation.setEmulatedMedia', { features });
  await call('Emulation.setDeviceMetricsOverride', { width, height, deviceScaleFactor: 1, mobile: false });
  await call('Page.enable');
  await call('Page.navigate', { url: address });

  const page = {
    call,
    /** The value of an expression in the page. */
    async value(expression) {
      const params = { expression, awaitPromise: true, returnByValue: true };
      const { result, exceptionDetails: thrown } = await call('Runtime.evaluate', params);
      if (thrown) throw new Error(`${expression}: ${thrown.exception?.description ?? thrown.text}`);
      return result.value;
    },
    /** Waits until an expression is true in the page. */
    async until(expression, what = expression) {
      for (let tries = 0; tries < 100; tries += 1) {
        if (await page.value(expression).catch(() => false)) return;
        await pause(50);
      }
      throw new Error(`waited in vain: ${what}`);
    },
    /** Clicks at the middle of the element that an expression gives. */
    async click(expression) {
      const [x, y] = await page.value(`(() => {
        const element = ${expression};
        element.scrollIntoView({ block: 'nearest', inline: 'nearest' });
        const { x, y, width, height } = element.getBoundingClientRect();
        return [x + width / 2, y + height / 2];
      })()`);
      const mouse = (type) => call('Input.dispatchMouseEvent', { type, x, y, button: 'left', clickCount: 1 });
      await mouse('mousePressed');
      await mouse('mouseReleased');
    },
    /** Gives the window another size. */
    size: (wide, high) => call('Emulation.setDeviceMetricsOverride',
      { width: wide, height: high, deviceScaleFactor: 1, mobile: false }),
    /** Types a text where the caret is. */
    type: (words) => call('Input.insertText', { text: words }),
    /** Writes a picture of the window. */
    async picture(file) {
      const { data } = await call('Page.captureScreenshot', { format: 'png' });
      writeFileSync(file, Buffer.from(data, 'base64'));
    },
    async close() {
      const ended = new Promise((done) => child.once('exit', done));
      await Promise.race([call('Browser.close').catch(() => {}), ended]);
      await Promise.race([ended, pause(3000)]);
      child.kill('SIGKILL');
      rmSync(profile, { recursive: true, force: true, maxRetries: 5 });
    },
  };
  return page;
}
