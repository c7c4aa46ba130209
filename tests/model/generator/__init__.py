"""Random scripts from a seed.

The maker of a script runs the model as it goes, and looks at it: at questions that are open, at frames that were sent,
at moments at which something ends. So replies fit questions, and things meet. A script has few names and few types.

    stock       the names, types and RDATA of one script
    messages    messages as octets: compressed names, capital letters, spoilt octets
    replies     replies of every kind
    frames      frames of anybody: known entries among new ones, forged stamps and ranks
    bad_lines   lines at fault
    maker       the script: its events, by weight
"""
