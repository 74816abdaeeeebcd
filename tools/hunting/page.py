"""The pages that hunt leaves: a table of all bugs, and the story of a finding that gpshow does not tell."""
import html, os

STYLE = '''
:root { color-scheme: light dark; --line: #8884; --soft: #8888; --mark: #bc4c0022; }
body { font: 15px/1.5 system-ui, sans-serif; max-width: 80rem; margin: 1.5rem auto; padding: 0 1rem; }
h1 { font-size: 1.4rem; }
h2 { font-size: 1.1rem; margin-top: 2rem; }
table { border-collapse: collapse; }
th, td { text-align: left; vertical-align: top; padding: .35rem .8rem .35rem 0; border-bottom: 1px solid var(--line); }
th { font-weight: 600; }
code { font: 13px/1.5 ui-monospace, monospace; }
code.place { display: block; white-space: pre-wrap; padding-left: 1rem; text-indent: -1rem; }
.known { opacity: .6; }
.of { background: var(--mark); }
'''


def page(title, body):
    """A whole page; `body` is markup."""
    head = '<!doctype html>\n<html lang="en">\n<head>\n<meta charset="utf-8">\n<title>%s</title>\n<style>%s</style>\n</head>\n'
    return head % (html.escape(title), STYLE) + '<body>\n<h1>%s</h1>\n%s\n</body>\n</html>\n' % (html.escape(title), body)


def table(heads, rows):
    """A table of rows of markup, each with the class of the row."""
    lines = ['<tr>%s</tr>' % ''.join('<th>%s</th>' % head for head in heads)]
    lines += ['<tr class="%s">%s</tr>' % (kind, ''.join('<td>%s</td>' % cell for cell in cells)) for kind, cells in rows]
    return '<table>\n%s\n</table>' % '\n'.join(lines)


def code(text, kind=''):
    return '<code class="%s">%s</code>' % (kind, html.escape(text))


def bug_row(number, bug, recordings):
    places = ''.join(code('%s: %s' % pair, 'place') for pair in zip(bug.names, bug.told)) or code(' '.join(bug.roles))
    story = '<a href="%s">story</a>' % html.escape(bug.story, True) if bug.story else ''
    verdict = html.escape('known' if bug.known else bug.verdict or 'not tried')
    often = '%d in %d of %d' % (bug.counts.total(), len(bug.seeds), recordings)
    return 'known' if bug.known else '', [str(number), code(bug.property), places, often, verdict, story]


def index(command, summary, bugs, recordings, notes):
    """The page for all: the bugs by number, and behind the table what else there is to know."""
    heads = ['', 'question', 'places', 'found, in recordings', 'on the program', '']
    told = ''.join('<li>%s</li>\n' % html.escape(note) for note in notes)
    body = '<p>%s</p>\n<p>%s</p>\n' % (code(command), html.escape(summary))
    body += table(heads, [bug_row(number, bug, recordings) for number, bug in bugs]) if bugs else ''
    return page('hunt', body + ('\n<h2>Beside that</h2>\n<ul>\n%s</ul>' % told if told else ''))


def source_line(source, place):
    """The text of a line, where its file lies in the folder of the sources."""
    name = place.file
    if not source or name.startswith('/') or '%' in name or '..' in name.split('/') or place.line == '0':
        return ''
    try:
        with open(os.path.join(source, name), encoding='utf-8', errors='replace') as file:
            return next((text.strip() for number, text in enumerate(file, 1) if number == int(place.line)), '')[:200]
    except OSError:
        return ''


def told_place(source, place, event):
    """A place with its line of the source; where none is known, the event."""
    if not place:
        return ' '.join(event)
    text = source_line(source, place)
    return '%s: %s' % (place, text) if text else str(place)


def story(title, recording, finding, source, end):
    """A schedule, event by event, and what stands at its end."""
    rows = []
    for number, name in enumerate(finding.schedule, 1):
        event, place = recording.event(finding.window, name), recording.place(finding.window, name)
        text = told_place(source, place, event) if place else ''
        rows.append(('of' if name in finding.events else '', [str(number), code(name), code(' '.join(event)), code(text)]))
    ends = ''.join('<li>%s</li>\n' % html.escape(line) for line in end)
    return page(title, table(['', 'event', 'what it does', 'where'], rows) + '\n<ul>\n%s</ul>' % ends)
