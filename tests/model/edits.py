"""Requests of the six kinds of edit, by what they ask for, and runs of requests."""
from samples import number, tagged


def pair(name, value):
    return tagged(4, name) + tagged(6, value)


def head(kind, name):
    return tagged(1, bytes([kind])) + tagged(2, name)


def insert(name, *pairs):
    return head(1, name) + b''.join(pair(n, v) for n, v in pairs)


def delete(name, row):
    return head(2, name) + tagged(3, number(row))


def add(name, row, field, value):
    return head(3, name) + tagged(3, number(row)) + pair(field, value)


def setting(name, row, field, occurrence, value):
    return head(4, name) + tagged(3, number(row)) + tagged(4, field) + tagged(5, number(occurrence)) + tagged(6, value)


def drop(name, row, field, occurrence):
    return head(5, name) + tagged(3, number(row)) + tagged(4, field) + tagged(5, number(occurrence))


def rename(name, row, field, occurrence, new):
    return head(6, name) + tagged(3, number(row)) + tagged(4, field) + tagged(5, number(occurrence)) + tagged(7, new)


def run(*requests):
    return b''.join(number(len(q)) + q for q in requests)
