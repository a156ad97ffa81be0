/**
 * The printer's page: jobs as they come, their paper, what was asked, and buttons for the state.
 * @typedef {{number: string, language: string | null, bytes: number, rows: number, line: string, is_over: boolean,
 *   begun: number, images: string[], asked: [string, string][]}} Job
 * @typedef {{words: string[], stops: boolean, rows_left: number | null}} State
 */

/** Each button of the state: its word, and the word that takes it back. @type {[string, string][]} */
const BUTTONS = [
  ['paper near end', 'paper loaded'], ['paper out', 'paper loaded'], ['cover open', 'cover closed'],
  ['offline', 'online'], ['busy', 'idle'], ['paused', 'going on'], ['cutter error', 'cutter free'],
  ['error', 'no error'], ['head hot', 'head cool'], ['ribbon out', 'ribbon loaded'], ['buffer full', 'buffer empty'],
]
const MOST_ASKED = 200

/** @param {string} id */
const by = id => /** @type {HTMLElement} */ (document.getElementById(id))
const search = /** @type {HTMLInputElement} */ (by('search'))
/** @type {Map<string, Job>} */
const jobs = new Map()
/** Jobs that are soon looked at. @type {Set<string>} */
const awaited = new Set()
/** @type {string | null} */
let chosen = null
let follows = true
let lastTold = -1

/**
 * An element of a kind, with a text and what stands in it.
 * @param {string} kind
 * @param {string} text
 * @param {Object<string, string>} [of]
 * @param {Node[]} within
 */
function made(kind, text, of = {}, ...within) {
  const it = document.createElement(kind)
  it.textContent = text
  for (const [name, value] of Object.entries(of)) it.setAttribute(name, value)
  it.append(...within)
  return it
}

/** Shows a state, if no later one is shown. @param {State} state @param {number} told */
function showState(state, told) {
  if (told < lastTold) return
  lastTold = told
  by('state').textContent = state.words.join(', ') +
    (!state.rows_left ? '' : `, paper for ${state.rows_left} rows`)
  by('state').className = state.stops ? 'stops' : ''
  for (const button of by('panel').querySelectorAll('button[data-word]'))
    button.setAttribute('aria-pressed', String(state.words.includes(button.getAttribute('data-word') ?? '')))
}

/** @param {string} word */
async function set(word) {
  const answer = await fetch('v1/state', { method: 'PUT', body: word })
  if (answer.ok) {
    const state = await answer.json()
    showState(state, state.told)
  } else by('line').textContent = await answer.text()
}

function makeButtons() {
  by('panel').append(made('button', 'ready'))
  by('panel').lastElementChild?.addEventListener('click', () => set('ready'))
  for (const [word, back] of BUTTONS) {
    const button = made('button', word, { 'data-word': word, 'aria-pressed': 'false' })
    button.addEventListener('click', () => set(button.getAttribute('aria-pressed') === 'true' ? back : word))
    by('panel').append(button)
  }
}

/** Whether a line tells of something wrong. @param {string} line */
const isFault = line => /^(vp: F|cut off|cannot)/.test(line)

function showJobs() {
  const text = search.value.toLowerCase()
  const found = [...jobs.values()].filter(it => JSON.stringify(it).toLowerCase().includes(text))
  found.sort((one, other) => other.number.localeCompare(one.number))
  by('jobs').replaceChildren(...found.slice(0, 200).map(job => {
    const line = job.is_over ? job.line : 'it comes'
    const button = made('button', '', { 'aria-current': String(job.number === chosen) },
      made('b', job.number, {}, made('time', new Date(1000 * job.begun).toLocaleTimeString())),
      made('span', line, isFault(line) ? { class: 'fault', title: line } : { title: line }))
    button.addEventListener('click', () => {
      follows = false
      choose(job.number)
    })
    return made('li', '', {}, button)
  }))
  by('none').hidden = found.length > 0
  by('none').textContent = jobs.size ? 'No job has this.' : 'No job yet.'
}

/** @param {string} number */
function choose(number) {
  chosen = number
  showJobs()
  const job = jobs.get(number)
  if (!job) return
  const head = made('div', '', {}, made('h2', `Job ${number}`),
    made('span', `${job.language ?? 'no language yet'}, ${job.bytes} bytes, ${job.rows} rows`, { class: 'quiet' }))
  if (job.is_over)
    head.append(made('a', 'Open in the viewer', { href: `v1/jobs/${number}/viewer`, target: '_blank', rel: 'noopener' }),
      made('a', 'Stream', { href: `v1/jobs/${number}.bin`, download: `${number}.bin` }))
  const line = made('p', job.is_over ? job.line : 'it comes')
  if (isFault(job.line)) line.className = 'fault'
  by('job').replaceChildren(head, line, ...job.images.map((name, nth) =>
    made('img', '', { src: `v1/jobs/${name}`, alt: `Paper ${nth + 1} of job ${number}` })))
  by('asked').replaceChildren(...job.asked.slice(-MOST_ASKED).map(([asked, answer]) => shown(asked, answer)))
}

/** @param {string} asked @param {string} answer */
const shown = (asked, answer) => made('li', '', {}, made('div', asked), made('i', answer ? `→ ${answer}` : 'no answer'))

/** @param {string} number */
async function look(number) {
  const answer = await fetch(`v1/jobs/${number}`)
  if (!answer.ok) return
  jobs.set(number, await answer.json())
  if (chosen === null || chosen === number || follows && number > chosen) choose(number)
  else showJobs()
}

/** Looks at a job soon, once for all that is told of it until then. @param {string} number */
function later(number) {
  if (awaited.has(number)) return
  awaited.add(number)
  setTimeout(() => {
    awaited.delete(number)
    void look(number)
  }, 100)
}

async function begin() {
  const [state, found] = await Promise.all(['v1/state', 'v1/jobs'].map(async it => (await fetch(it)).json()))
  showState(state, state.told)
  for (const job of found.jobs) jobs.set(job.number, job)
  if (found.jobs.length && chosen === null) choose(found.jobs[0].number)
  showJobs()
}

function follow() {
  const events = new EventSource('v1/events')
  events.onopen = () => {
    by('line').textContent = ''
    lastTold = -1
    void begin()
  }
  events.onerror = () => {
    by('line').textContent = 'the printer is gone: it is looked for'
  }
  events.onmessage = message => {
    const event = JSON.parse(message.data)
    if (event.kind === 'state') showState(event, Number(message.lastEventId))
    else later(event.number)
  }
}

search.addEventListener('input', showJobs)
makeButtons()
follow()
