"""Colours and sizes. The kinds' colours are equally dark, so that a picture without colours shows how far an activity is."""

FULL = ('#4273b0', '#a25e2b', '#448247', '#915a95', '#008585', '#8f6b09', '#7165ad', '#a85556', '#707920', '#007ea2')
PALE = ('#aecaee', '#e7bea3', '#b0d2b0', '#dcbbdd', '#99d4d3', '#d9c59b', '#c6c1ec', '#ecb8b7', '#c6cda0', '#9ed0e5')
INK, DIM, FAINT = '#1a1a1a', '#555555', '#d9d9d9'
WRONG, OPEN, SERVED, DROPPED, TOLD = '#b3001b', '#b36b00', '#2f6b33', '#8a8a8a', '#6a1b9a'
PAST, COMMITTED = '#f0f0f0', '#eaf4ea'
FONT = 'DejaVu Sans, Verdana, Arial, sans-serif'

LABELS = 152          # the width of the column of labels
MARGIN = 14           # what stays free on the right
TEXT = 10             # the size of most letters
SMALL = 9
ROW = 15              # the height of a row of activities
BAR = 11


def full(number):
    return FULL[number % len(FULL)]


def pale(number):
    return PALE[number % len(PALE)]
