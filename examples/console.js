// A session with `wave serve` from a browser's console. Paste this into the console of any page, and then, say,
//     const alice = wave("ws://127.0.0.1:9870", "alice@a.com")
//     alice.begin("a.com/w1/a.com/conv+root", "bob@a.com")
//     alice.type("a.com/w1/a.com/conv+root", "b+1", "Hello")
//     alice.text("a.com/w1/a.com/conv+root", "b+1")
// It types at the end of documents of plain letters. Whenever a delta comes it asks for the state anew, so it needs no hashes of deltas.
function wave(address, user) {
  const socket = new WebSocket(address), client = Math.floor(Math.random() * 2 ** 48), copies = {}
  let number = 0
  const say = message => socket.send(JSON.stringify(message))
  const open = wavelet => say({ type: "open", wavelet })
  const letters = operation => operation.map(item => item.characters ?? "").join("")
  socket.onopen = () => say({ type: "hello", user })
  socket.onmessage = ({ data }) => {
    const message = JSON.parse(data)
    if (message.type === "update") open(message.wavelet)
    if (message.type === "snapshot") {
      const documents = Object.fromEntries(message.documents.map(({ name, operation }) => [name, letters(operation)]))
      copies[message.wavelet] = { version: message.version, hash: message.hash, documents }
    }
    console.log(data)
  }
  const submit = (wavelet, { version, hash }, operations) => say({ type: "submit", wavelet, client, number: ++number, version, hash, operations })
  const text = (wavelet, document) => copies[wavelet]?.documents[document] ?? ""
  return {
    open,
    text,
    async begin(wavelet, ...users) {
      const bytes = new Uint8Array(await crypto.subtle.digest("SHA-256", new TextEncoder().encode(wavelet)))
      submit(wavelet, { version: 0, hash: btoa(String.fromCharCode(...bytes)) }, [user, ...users].map(participant => ({ type: "add", participant })))
      open(wavelet)
    },
    type(wavelet, document, more) {
      const count = [...text(wavelet, document)].length
      const kept = count ? [{ retain_item_count: count }] : []
      submit(wavelet, copies[wavelet], [{ type: "mutate", document, operation: [...kept, { characters: more }] }])
    },
    close: () => socket.close(),
  }
}
