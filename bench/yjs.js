// Does a work with a text of Yjs, for bench/beside.py: `node yjs.js WORK FILE..`. States and updates are Yjs's bytes.
//   write EDITS MADE [BEGUN]   does edits, on a state if one is there, each as an update that is kept; writes the state
//                              that is made, and all updates to MADE.updates
//   merge STATE OTHER MADE     writes the state that two make together
//   show STATE TEXT            writes the text of a state
//   nothing                    only begins

const fs = require("fs");
const Y = require("yjs");

function loaded(path) {
  const doc = new Y.Doc();
  if (path) Y.applyUpdate(doc, fs.readFileSync(path));
  return doc;
}

function put(path, doc) {
  fs.writeFileSync(path, Y.encodeStateAsUpdate(doc));
}

function edit(text, [place, deleted, inserted]) {
  if (deleted) text.delete(place, deleted);
  if (inserted) text.insert(place, inserted);
}

const works = {
  write(edits, made, begun) {
    const doc = loaded(begun);
    const text = doc.getText();
    const updates = [];
    doc.on("update", (update) => updates.push(update));
    for (const line of fs.readFileSync(edits, "utf8").trim().split("\n")) edit(text, JSON.parse(line));
    put(made, doc);
    fs.writeFileSync(`${made}.updates`, Buffer.concat(updates));
  },
  merge(one, other, made) {
    const doc = loaded(one);
    Y.applyUpdate(doc, fs.readFileSync(other));
    put(made, doc);
  },
  show(state, text) {
    fs.writeFileSync(text, loaded(state).getText().toString());
  },
  nothing() {},
};

const [work, ...files] = process.argv.slice(2);
works[work](...files);
