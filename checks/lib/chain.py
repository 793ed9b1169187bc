"""The definitions that definitions stand on: follows the lines `use Rattle.CRATE.specs.PATH` of the files of specs/ of this repository.

As a program: the arguments are the folder of the repository and files of specs/, as headline/Headline. It prints each file
that these stand on, themselves included, with its number of lines, and below them the number of files and of lines. Types that the
code declares (`specs.declared`) and the definitions of the kit's library (`std`) are not followed."""
import os
import re
import sys

USED = re.compile(r'^use Rattle\.(\w+)\.specs\.([\w.]+)', re.MULTILINE)


def path_of(top, name):
    crate, file = name.split('/', 1)
    return os.path.join(top, 'crates', crate, 'specs', file + '.antt')


def text_of(top, name):
    with open(path_of(top, name), encoding='utf-8') as file:
        return file.read()


def file_named(top, crate, dotted):
    """The file that a path of a `use` line names: its longest front that is a file."""
    parts = dotted.rstrip('.').split('.')
    while parts:
        name = crate + '/' + '/'.join(parts)
        if os.path.exists(path_of(top, name)):
            return name
        parts.pop()
    return None


def used_by(top, name):
    found = []
    for crate, dotted in USED.findall(text_of(top, name)):
        if crate != 'std' and not dotted.startswith('declared'):
            used = file_named(top, crate, dotted)
            if used is not None and used not in found:
                found.append(used)
    return found


def chain(top, names):
    """The files that these stand on, each after all that it stands on."""
    order, seen = [], set()

    def visit(name):
        if name not in seen:
            seen.add(name)
            for used in used_by(top, name):
                visit(used)
            order.append(name)

    for name in names:
        visit(name)
    return order


def lines_of(top, name):
    return len(text_of(top, name).splitlines())


def main():
    top, *names = sys.argv[1:]
    order = chain(top, names)
    for name in order:
        print(f'{lines_of(top, name):5} {name}')
    print(f'{len(order)} files, {sum(lines_of(top, name) for name in order)} lines')


if __name__ == '__main__':
    main()
