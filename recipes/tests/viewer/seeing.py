"""Tests what is seen: sizes of windows, the grid, units, boxes under the pointer, files and print in true size."""
import base64
import pathlib
import re
from in_browser import FRAME, READY, choose, new_stream, saved
from serving import same, vp

PAGE = pathlib.Path(__file__).resolve().parents[2] / 'viewer' / 'page.css'
# Texts on their grounds: what is read has to have a contrast of 4.5 and more.
READ = (('ink', 'panel'), ('ink', 'back'), ('quiet', 'panel'), ('quiet', 'back'), ('name', 'panel'), ('data', 'panel'),
        ('comment', 'panel'), ('skip', 'panel'), ('escape', 'panel'), ('fault', 'fault-back'), ('ink', 'fault-back'),
        ('remark', 'remark-back'), ('remark', 'panel'), ('ink', 'chosen'), ('name', 'chosen'), ('data', 'chosen'),
        ('parameter', 'panel'), ('lost', 'panel'), ('added', 'panel'), ('same', 'panel'), ('ink', 'desk'))


def label(browser, text):
    new_stream(browser, 'label')
    browser.value("document.getElementById('text').select()")
    browser.insert(text)
    browser.wait(READY, 'the paper')


def test_windows(browser):
    """In any window nothing is cut at the side; on a phone the paper comes first."""
    # (other browsers have a least width)
    if browser.name != 'Chromium':
        return
    for width, height in (320, 640), (390, 844), (768, 1024), (1280, 800), (2560, 1440):
        browser.size(width, height)
        browser.value(FRAME)
        wide, paper, stream = browser.value("""[document.documentElement.scrollWidth,
          document.querySelector('.scroll').getBoundingClientRect().top,
          document.querySelector('.left').getBoundingClientRect().top]""")
        same([wide, width], [width, width])
        assert paper < height / 2 and (width > 640 or paper < stream), (width, paper, stream)
        outside = browser.value("""[...document.querySelectorAll('button, select, input')].filter(it => {
          const { left, right, width } = it.getBoundingClientRect();
          return width && !it.closest('#tabs') && (left < 0 || right > innerWidth + 1);
        }).map(it => it.id || it.textContent)""")
        same([width, outside], [width, []])
    browser.size(2200, 1700)


COLOURS = """(() => { const { paper } = viewer, { x, y } = paper.placed[0];
  const seen = paper.canvas.getContext('2d').getImageData(x + 1, y + 1, 200, 40).data, found = {};
  for (let at = 0; at < seen.length; at += 4) {
    const name = [...seen.slice(at, at + 3)].join();
    found[name] = (found[name] ?? 0) + 1;
  }
  return found; })()"""


def test_grid(browser):
    """The grid draws lines whatever the zoom, and nothing where it is off."""
    label(browser, '^XA^PW400^LL400^FO300,300^GB8,8,8^FS^XZ')
    for zoom in 'fit', '1', '2', '4', '8':
        browser.value(f"document.querySelector('[data-zoom=\"{zoom}\"]').click()")
        browser.value(FRAME)
        same([zoom, len(browser.value(COLOURS))], [zoom, 1])
        browser.value("document.getElementById('grid').click()")
        browser.value(FRAME)
        found = browser.value(COLOURS)
        assert len(found) > 2, (zoom, found)
        browser.value("document.getElementById('grid').click()")
    # in inches, at each number of dots
    choose(browser, 'unit', 'in')
    for dots, inch in ('6', 152.4), ('8', 203.2), ('12', 304.8), ('24', 609.6):
        choose(browser, 'dpmm', dots)
        browser.value("viewer.paper.cursor = { sheet: 0, x: 200, y: 100 }, viewer.paper.told(viewer.paper.cursor)")
        want = f'({200 / inch:.3f}, {100 / inch:.3f} in)'
        said = browser.value("document.getElementById('dot').textContent")
        assert want in said, (want, said)
    choose(browser, 'dpmm', '8')
    choose(browser, 'unit', 'mm')
    browser.value('viewer.paper.cursor = null')


def test_hover(browser):
    """The pointer over the paper shows the box of what drew it; over a command, that of what it draws."""
    browser.value('delete viewer.paper.setHover, 0')
    label(browser, '^XA^PW400^LL200\n^FO40,20^GB100,30,2^FS\n^FO200,80^GB50,50,50^FS\n^XZ')
    browser.wait('viewer.tab().told === viewer.tab().edits', 'remarks')
    browser.value("document.activeElement.blur(), document.querySelector('[data-zoom=\"1\"]').click()")
    browser.value(FRAME)
    box = '(it => it && [it.x, it.y, it.width, it.height])(viewer.paper.hover)'
    move = """((target, x, y) => target.dispatchEvent(new PointerEvent('pointermove',
      { clientX: x, clientY: y, bubbles: true })))"""
    browser.value(f"""(() => {{ const {{ paper }} = viewer, place = paper.placed[0];
      const at = paper.scroll.getBoundingClientRect();
      {move}(paper.scroll, at.left + (place.x + 220) / paper.ratio, at.top + (place.y + 90) / paper.ratio); }})()""")
    browser.wait('viewer.paper.hover', 'the box under the pointer')
    same(browser.value(box), [200, 80, 50, 50])
    assert '^FO200,80^GB50,50,50^FS' in browser.value("document.getElementById('dot').textContent")
    browser.value(f"""(area => {{ const at = area.getBoundingClientRect();
      {move}(area, at.left + 40, at.top + 30); }})(document.getElementById('text'))""")
    browser.wait(f'String({box}) === "40,20,100,30"', 'the box of a command')


def boxes(picture):
    """The dots of an SVG's boxes, as rows of bits."""
    size = re.search(r'width="([\d.]+)mm" height="([\d.]+)mm" viewBox="0 0 (\d+) (\d+)"', picture)
    wide, high = int(size[3]), int(size[4])
    rows = [0] * high
    for x, y, w, h in re.findall(r'M(\d+) (\d+)h(\d+)v(\d+)h-\d+z', picture):
        for row in range(int(y), int(y) + int(h)):
            rows[row] |= (1 << int(w)) - 1 << wide - int(x) - int(w)
    return (float(size[1]), float(size[2])), wide, rows


def test_files(browser):
    """An image as SVG has the dots of vp in its true size; a PDF has a page for each image."""
    text = '^XA^PW84^LL40^FO8,8^GB20,12,3^FS^FO30,10^BY1^BCN,20,N^FDA1^FS^PQ3^XZ'
    label(browser, text)
    size, wide, rows = boxes(saved(browser, 'save-svg').decode())
    same([size, wide], [(10.5, 5), 84])
    dots = vp('label', text.encode())[len(b'P4\n84 40\n'):][:11 * 40]
    same(rows, [int.from_bytes(dots[n:n + 11], 'big') >> 4 for n in range(0, len(dots), 11)])
    data = saved(browser, 'save-pdf')
    same([len(re.findall(rb'/Type /Page ', data)), b'/Count 3' in data], [3, True])
    # what isn't in a file is said
    label(browser, '^XA^PW80^LL8^FO0,0^GB8,8,8^FS^PQ70^XZ')
    saved(browser, 'save-pdf')
    browser.wait("document.getElementById('messages').textContent.includes('Of the file that was saved')", 'the rest')


def test_print(browser):
    """A page for each image, in its true size, and nothing of the interface."""
    label(browser, '^XA^PW480^LL240^FO8,8^GB8,8,8^FS^PQ2^XZ')
    browser.value("dispatchEvent(new Event('beforeprint'))")
    pages = browser.value("""[...document.querySelectorAll('#print-out canvas')].map(it => [it.style.width,
      it.style.height, [...it.getContext('2d').getImageData(7, 8, 2, 1).data].join()])""")
    same(pages, [['60mm', '30mm', '255,255,255,255,0,0,0,255']] * 2)
    browser.value("dispatchEvent(new Event('afterprint'))")
    same(browser.value("document.querySelectorAll('#print-out canvas').length"), 0)
    if browser.name == 'Chromium':
        data = base64.b64decode(browser.ask('Page.printToPDF', preferCSSPageSize=True)['data'])
        sizes = [[float(it) for it in found.split()] for found in re.findall(rb'/MediaBox ?\[([^\]]*)\]', data)]
        assert len(sizes) == 2 and all(abs(it[2] - 170.08) < 1 and abs(it[3] - 85.04) < 1 for it in sizes), sizes


def light(colour):
    parts = [int(colour[n:n + 2], 16) / 255 for n in (1, 3, 5)]
    parts = [it / 12.92 if it <= 0.04045 else ((it + 0.055) / 1.055) ** 2.4 for it in parts]
    return sum(share * it for share, it in zip((0.2126, 0.7152, 0.0722), parts))


def test_contrast(_):
    """Texts have the contrast of level AA on their grounds, by day and by night."""
    text = PAGE.read_text()
    day, night = (dict(re.findall(r'--([\w-]+): (#[0-9a-f]{3,6})\b', part)) for part in
                  re.split(r'@media \(prefers-color-scheme: dark\)', text, maxsplit=1))
    for colours in day, {**day, **night}:
        full = {name: it if len(it) == 7 else '#' + ''.join(2 * one for one in it[1:]) for name, it in colours.items()}
        for ink, ground in READ:
            one, other = sorted((light(full[ink]), light(full[ground])))
            assert (other + 0.05) / (one + 0.05) >= 4.5, (ink, ground, full[ink], full[ground])


def test_roles(browser):
    """What can be used has a name, and regions have one."""
    without = browser.value("""[...document.querySelectorAll('button, select, input, textarea, [role], section')]
      .filter(it => !['presentation', 'status', 'alert'].includes(it.getAttribute('role')))
      .filter(it => !it.closest('[hidden], dialog') && !it.getAttribute('aria-label'))
      .filter(it => !it.getAttribute('aria-labelledby') && !it.labels?.length && !it.textContent.trim())
      .map(it => it.outerHTML.slice(0, 80))""")
    same(without, [])


SEEN = test_windows, test_grid, test_hover, test_print, test_contrast, test_roles
