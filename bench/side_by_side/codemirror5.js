// The made workload on CodeMirror 5's `Doc`, without an editor: node codemirror5.js CODEMIRROR N
// CODEMIRROR is the path of codemirror.js. Writes the length and the number of lines of the document at the end.
"use strict"

// What codemirror.js looks for in a browser as it is loaded; a `Doc` needs none of it.
const element = () => ({style: {}, setAttribute() {}, appendChild() {}, addEventListener() {}})
const browser = {
  navigator: {userAgent: "", platform: "", vendor: ""},
  document: {createElement: element, createTextNode: element, createRange: element, documentElement: element(), body: element(), addEventListener() {}},
}
for (const name of Object.keys(browser)) Object.defineProperty(globalThis, name, {value: browser[name], configurable: true})
globalThis.window = globalThis

const CodeMirror = require(require("path").resolve(process.argv[2]))
const count = Number(process.argv[3])

let seed = 1
function draw() {
  seed = (Math.imul(seed, 1103515245) + 12345) & 0x7fffffff
  return seed >>> 16
}

function madeText(size, letter) {
  let text = ""
  for (let i = 0; i < size; i++) text += i == 7 ? "\n" : String.fromCharCode(97 + (letter + i) % 26)
  return text
}

const doc = new CodeMirror.Doc("")
let length = 0
for (let i = 0; i < count; i++) {
  const a = draw(), b = draw(), c = draw()
  const at = c % (length + 1)
  if (a % 4 >= 2) {
    const size = 1 + b % 8
    doc.replaceRange(madeText(size, c), doc.posFromIndex(at))
    length += size
  } else if (a % 4 == 0) {
    const to = Math.min(length, at + b % 8)
    doc.replaceRange("", doc.posFromIndex(at), doc.posFromIndex(to))
    length -= to - at
  } else {
    const to = Math.min(length, at + 1 + b % 8)
    doc.markText(doc.posFromIndex(at), doc.posFromIndex(to), {className: "mark"})
  }
}
console.log(doc.getValue().length, doc.lineCount())
