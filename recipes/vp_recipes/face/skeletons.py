"""The face as data: the skeleton of each character, which characters look alike, and where marks stand on letters."""
from .cell_forms import FORMS, LARGE, SMALL
from .cyrillic import CYRILLIC
from .greek import GREEK
from .latin import OTHERS, PLAIN
from .marks import MARKS
from .notation import lines_of
from .signs import MATHS, SIGNS

LINES = lines_of(PLAIN, SIGNS, OTHERS, GREEK, CYRILLIC, MATHS, MARKS)
# Of those whose form is another one in cells of 12 by 24 dots, and of 9 by 17.
IN_LARGE, IN_SMALL = lines_of(FORMS, LARGE), lines_of(FORMS, SMALL)
# Letters that look as others.
ALIKE = dict(zip('ΑΒΕΖΗΙΚΜΝΟΡΤΥΧκμνοАВЕКМНОРСТХЅІЈГПФаеорсухѕіјкфћҺһ∆Ω∑ҮÐ',
                 'ABEZHIKMNOPTYXĸµvoABEKMHOPCTXSIJΓΠΦaeopcyxsijĸφħHhΔΩΣYĐ'))
ALIKE.update({'\u00a0': ' ', '\u00ad': '-', '\u2010': '-', '\u2011': '-', '\u2015': '—', '΄': '´', '\u037a': '˛'})
# Where a mark stands on a letter whose middle is elsewhere.
MIDDLES = {'L': 125, 'l': 125, 'i': 125, 'j': 125, 'r': 215, 'E': 330, 'F': 320, 'd': 250, 'h': 125, 'k': 125, 'α': 265,
           'ι': 125, 'Г': 320}
DOTLESS = {'i': 'ı', 'j': 'ȷ', 'і': 'ı', 'ј': 'ȷ'}
# Letters whose cedilla is a comma, and small ones as high as capitals.
COMMAS, TALL = set('KkLlNnRrG'), set('bdfhklß')
