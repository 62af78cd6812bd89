#!/usr/bin/env python3
"""Writes a large metadata document: documents.py KIND COUNT FILE [TABLE]

KIND is one of
    notes       so many notes, each of 100 objects, one in another
    properties  so many common properties
    texts       a common property with so many texts
    columns     so many tables of 1,024 columns; TABLE is then written too, with a header that fits each
"""
import sys

CONTEXT = '"@context":"http://www.w3.org/ns/csvw"'


def notes(count):
    note = '{"dc:x":' * 100 + '1' + '}' * 100
    return '{%s,"url":"p.csv","notes":[%s]}' % (CONTEXT, ','.join([note] * count))


def properties(count):
    return '{%s,"url":"p.csv",%s}' % (CONTEXT, ','.join('"dc:p%d":1' % n for n in range(count)))


def texts(count):
    return '{%s,"url":"p.csv","dc:x":[%s]}' % (CONTEXT, ','.join('"%06d"' % n for n in range(count)))


def names():
    return ['%x' % n for n in range(1024)]


def columns(count):
    schema = '{"columns":[%s]}' % ','.join('{"name":"%s"}' % name for name in names())
    tables = ','.join('{"url":"%d","tableSchema":%s}' % (n, schema) for n in range(count))
    return '{%s,"tables":[%s]}' % (CONTEXT, tables)


KINDS = {'notes': notes, 'properties': properties, 'texts': texts, 'columns': columns}


def main():
    kind, count, path = sys.argv[1], int(sys.argv[2]), sys.argv[3]
    with open(path, 'w', encoding='utf-8') as f:
        f.write(KINDS[kind](count))
    if len(sys.argv) > 4:
        with open(sys.argv[4], 'w', encoding='utf-8') as f:
            f.write(','.join(names()) + '\n')


if __name__ == '__main__':
    main()
