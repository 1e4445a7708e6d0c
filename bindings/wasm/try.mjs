// The module's calls from node: node try.mjs MODULE
import fs from 'node:fs'
const { instance } = await WebAssembly.instantiate(fs.readFileSync(process.argv[2]), {})
const calls = instance.exports, memory = new DataView(calls.memory.buffer)
const next = 65536n, answer = 65544n
let word = 0n, wrong = 0
function want(what, found, wanted) { if (found !== wanted) { wrong++; console.log(`${what}: ${found}, and not ${wanted}`) } }
function make(name, ...rest) {
  const status = calls['bsp_phaser_' + name](word, ...rest, next, answer)
  word = memory.getBigUint64(Number(next), true)
  return `${status} ${memory.getInt32(Number(answer), true)} ${BigInt.asUintN(64, word).toString(16)}`
}
want('register 2', make('register', 2n), '0 0 20002')
want('arrive', make('arrive', 1, 0xffffffff), '0 0 20001')
want('arrive', make('arrive', 1, 0xffffffff), '0 0 100020002')
want('leave', make('leave', 1, 0xffffffff), '0 1 100010001')
want('register -1', make('register', -1n), '6 0 100010001')
want('leave', make('leave', 1, 0xffffffff), '0 1 8000000200000000')
want('arrive', make('arrive', 1, 0xffffffff), '0 -2147483646 8000000200000000')
word = 3n
want('no word', make('force'), '1 0 3')
want('await', calls.bsp_phaser_await(0x100010001n, 1, answer), 2)
console.log(`${Object.keys(calls).filter(name => name.startsWith('bsp_')).length} calls in ${fs.statSync(process.argv[2]).size} bytes, ${wrong} wrong`)
process.exit(wrong ? 1 : 0)
