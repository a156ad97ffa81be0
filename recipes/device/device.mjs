/**
 * A printer that answers, for tests in node: it is begun with `start`, and ends with `end`, or with this process.
 *
 *     const printer = await start(['--busy', 'xoff'])
 *     t.after(() => printer.end())
 */
import { spawn } from 'node:child_process'
import { mkdtemp, readFile, rm } from 'node:fs/promises'
import { tmpdir } from 'node:os'
import { join } from 'node:path'
import { fileURLToPath } from 'node:url'

const PROGRAM = fileURLToPath(new URL('device', import.meta.url))
const PATIENCE = 20000

/**
 * @typedef {{number: string, language: string | null, bytes: number, rows: number, line: string, is_over: boolean,
 *   begun: number, images: string[], asked: [string, string][]}} Job
 */

/** A printer on free ports of 127.0.0.1. */
export class Printer {
  /** @param {import('node:child_process').ChildProcess} child @param {string} folder @param {RegExpExecArray} head */
  constructor(child, folder, head) {
    this.child = child
    /** Where its jobs stand. */
    this.folder = folder
    this.host = '127.0.0.1'
    this.port = Number(head[1])
    /** Of its service and page. */
    this.address = head[2]
  }

  /**
   * What the service answers, as /v1/openapi.json describes it. What is wrong is an Error with its line.
   * @param {string} method @param {string} path @param {string | Uint8Array} [body]
   */
  async ask(method, path, body) {
    const answer = await fetch(this.address + path, { method, body, signal: AbortSignal.timeout(PATIENCE) })
    if (!answer.ok) throw new Error((await answer.text()).trim())
    return answer
  }

  /** Changes the state. @param {string} words as `paper out, cover open` */
  async set(words) {
    await this.ask('PUT', '/v1/state', words)
  }

  /** Begins with a script. @param {string} words as `after 1200 rows: paper out; after 3 s: loaded` */
  async script(words) {
    await this.ask('PUT', '/v1/script', words)
  }

  /** The last 200 jobs, the oldest first. @returns {Promise<Job[]>} */
  async jobs() {
    return (await (await this.ask('GET', '/v1/jobs')).json()).jobs.reverse()
  }

  /** The jobs, once so many have ended. @param {number} count @param {number} milliseconds */
  async ended(count = 1, milliseconds = PATIENCE) {
    const until = Date.now() + milliseconds
    for (;;) {
      const jobs = await this.jobs()
      if (jobs.filter(it => it.is_over).length >= count) return jobs
      if (Date.now() > until) throw new Error(`${count} jobs have not ended: ${JSON.stringify(jobs)}`)
      await new Promise(done => setTimeout(done, 20))
    }
  }

  /** The stream of a job, or an image of one. @param {string} name as `000001.bin`, `000001.png` */
  read(name) {
    return readFile(join(this.folder, 'jobs', name))
  }

  /** Ends it, and takes its folder away. */
  async end() {
    if (this.child.exitCode === null) {
      const gone = new Promise(done => this.child.once('exit', done))
      this.child.stdin?.end()
      await gone
    }
    await rm(this.folder, { recursive: true, force: true })
  }
}

/**
 * Begins a printer. Words that are none are an Error with its line.
 * @param {string[]} words of `device`, as `--busy`, `xoff`
 * @returns {Promise<Printer>}
 */
export async function start(words = []) {
  const folder = await mkdtemp(join(tmpdir(), 'vp-device-'))
  const child = spawn(PROGRAM, ['--while-stdin', '--port', '0', '--http', '0', ...words, join(folder, 'jobs')],
    { stdio: ['pipe', 'ignore', 'pipe'] })
  let said = ''
  const head = await new Promise((done, fail) => {
    child.once('error', fail)
    child.once('exit', () => fail(new Error(said.trim())))
    child.stderr.on('data', data => {
      said = (said + data).slice(-10000)
      const found = /port (\d+), to .*\nits page is (\S+)\/\n/.exec(said)
      if (found) done(found)
    })
  }).catch(async error => {
    await rm(folder, { recursive: true, force: true })
    throw error
  })
  return new Printer(child, folder, head)
}
