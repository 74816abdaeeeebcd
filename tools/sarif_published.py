"""What two packages of Debian have of the published JSON schema of SARIF 2.1.0, and whether a log agrees with it.

Both were generated from the schema: the Python classes of `python3-sarif-python-om`, which say which members an object may have and which it needs,
and the Go structs of `golang-github-haya14busa-go-sarif-dev`, which say that too, of which type each member is, and which words an enum has.
Neither has what the schema says beside: least numbers and lengths, forms of strings, and of which members one at least is needed.
"""
import ast, glob, os, re

GO = '/usr/share/gocode/src/github.com/haya14busa/go-sarif/sarif/sarif.go'
PYTHON = '/usr/lib/python3/dist-packages/sarif_om'
PLAIN = {'string': str, 'int64': int, 'float64': (int, float), 'bool': bool}
CLASSES = {'Sarif': 'SarifLog', 'AttachmentElement': 'Attachment'}  # what Go names otherwise
OPEN = 'PropertyBag'  # it may have any member


class Unreadable(Exception):
    """A package is not installed, or is not what is read here."""


def read(path):
    try:
        with open(path, encoding='utf-8') as file:
            return file.read()
    except OSError as fault:
        raise Unreadable('%s: %s' % (path, fault.strerror)) from None


def go_types():
    """The structs, each with its members, of each the type and whether it is needed; and the enums, each with its words."""
    text = re.sub(r'//.*', '', read(GO))
    find = lambda form, within: re.findall(form, within, re.MULTILINE | re.DOTALL)
    structs = {name: {member: (kind, not left_out) for kind, member, left_out in find(r'^\t\w+ +(\S+) +`json:"([^",]+)(,omitempty)?"`', body)}
               for name, body in find(r'^type (\w+) struct \{\n(.*?)^\}', text)}
    enums = {name: set(find(r'^\t\w+ %s = "([^"]*)"' % name, text)) for name in find(r'^type (\w+) string', text)}
    if 'Sarif' not in structs or 'Level' not in enums:
        raise Unreadable('%s has no structs' % GO)
    return structs, enums


def python_classes():
    """The classes, each with its members, of each whether it is needed: whether it has no default."""
    classes = {}
    for path in sorted(glob.glob(os.path.join(PYTHON, '_[a-z]*.py'))):
        for item in ast.parse(read(path)).body:
            if isinstance(item, ast.ClassDef):
                classes[item.name] = dict(member_of(line.value) for line in item.body if isinstance(line, ast.Assign))
    if not classes:
        raise Unreadable('%s has no classes' % PYTHON)
    return classes


def member_of(call):
    words = {word.arg: word.value for word in call.keywords}
    return ast.literal_eval(words['metadata'])['schema_property_name'], 'default' not in words


class Published:
    """The schema as the two packages have it."""

    def __init__(self):
        self.structs, self.enums = go_types()
        self.classes = python_classes()
        self.objects = self.members = 0  # that were compared

    def class_of(self, struct):
        return self.classes.get(CLASSES.get(struct, struct))

    def differences(self):
        """The objects of which the two packages do not name the same members, or not the same ones as needed."""
        return [name for name, members in self.structs.items()
                if {member: needed for member, (_, needed) in members.items()} != self.class_of(name)]

    def value(self, value, kind, place, refuse):
        """Tells each place of a value that is not as the schema has it."""
        kind = kind.lstrip('*')
        if kind.startswith('[]'):
            self.elements(value, list, kind[2:], place, refuse)
        elif kind.startswith('map[string]'):
            self.elements(value, dict, kind[len('map[string]'):], place, refuse)
        elif kind in self.structs:
            self.object(value, kind, place, refuse)
        elif kind in self.enums:
            if value not in self.enums[kind]:
                refuse(place, 'is none of %s' % ', '.join(sorted(self.enums[kind])))
        elif not isinstance(value, PLAIN[kind]) or kind != 'bool' and isinstance(value, bool):
            refuse(place, 'is no %s' % kind)

    def elements(self, value, container, kind, place, refuse):
        if not isinstance(value, container):
            refuse(place, 'is no %s' % container.__name__)
            return
        for key, element in value.items() if container is dict else enumerate(value):
            self.value(element, kind, '%s[%s]' % (place, key), refuse)

    def object(self, value, kind, place, refuse):
        if not isinstance(value, dict):
            refuse(place, 'is no %s' % kind)
            return
        self.objects += 1
        for name, (_, needed) in self.structs[kind].items():
            if needed and name not in value:
                refuse(place, 'has no `%s`, which a %s needs' % (name, kind))
        for name, held in value.items():
            self.members += 1
            if name in self.structs[kind]:
                self.value(held, self.structs[kind][name][0], '%s.%s' % (place, name), refuse)
            elif kind != OPEN:
                refuse(place, 'has `%s`, which no %s has' % (name, kind))
