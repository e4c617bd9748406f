// Takes the picture of the page that a Chromium with --remote-debugging-port=9377 shows, once the trace is drawn.
(async () => {
  const pause = milliseconds => new Promise(done => setTimeout(done, milliseconds));
  const pages = await (await fetch('http://127.0.0.1:9377/json')).json();
  const socket = new WebSocket(pages.find(page => page.url.includes('9378')).webSocketDebuggerUrl);
  await new Promise(done => socket.onopen = done);
  let number = 0;
  const waiting = new Map();
  socket.onmessage = message => { const answer = JSON.parse(message.data); waiting.get(answer.id)?.(answer.result); };
  const call = (method, params) => new Promise(done => {
    const id = ++number;
    waiting.set(id, done);
    socket.send(JSON.stringify({ id, method, params }));
  });
  await call('Emulation.setDeviceMetricsOverride', { width: 1100, height: 520, deviceScaleFactor: 1, mobile: false });
  const drawn = { expression: 'typeof model === "object" && Object.keys(model.processes).length > 0' };
  while (!(await call('Runtime.evaluate', drawn)).result.value) await pause(1000);
  await pause(10000);
  const clip = { x: 0, y: 0, width: 1100, height: 400, scale: 1 };
  const shot = await call('Page.captureScreenshot', { format: 'png', clip });
  require('fs').writeFileSync('trace_of_page_load.png', Buffer.from(shot.data, 'base64'));
  process.exit(0);
})();
