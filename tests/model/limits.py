"""Numbers, kinds and types that the other modules name."""

MESSAGE_LIMIT = 512                 # octets of a message (RFC 1035 4.2.1)
NAME_LIMIT = 255                    # octets of a name (RFC 1035 2.3.4)
LABEL_LIMIT = 63                    # octets of a label (RFC 1035 2.3.4)
FRAME_LIMIT = 16384                 # octets of a frame
BODY_LIMIT = 8192                   # octets of an observation's body
LINK_LIMIT = 8                      # aliases of a chain
QUESTION_LIMIT = 256                # open questions of a site
WAITER_LIMIT = 32                   # who waits for one question
TRY_SECONDS = 2                     # seconds until the next upstream is asked
LONGEST_LIFE = 86400                # seconds of a positive observation and of a flush
LONGEST_DENIAL = 10800              # seconds of a negative one (RFC 2308 5)
LAST_MOMENT = 1 << 40               # the greatest moment

NAME_ERROR, NO_DATA, POSITIVE, FLUSH = 1, 2, 3, 4
KIND_WORDS = {NAME_ERROR: "nxdomain", NO_DATA: "nodata", POSITIVE: "positive", FLUSH: "flush"}

A, NS, CNAME, SOA, PTR, MINFO, MX, TXT, AAAA, SRV = 1, 2, 5, 6, 12, 14, 15, 16, 28, 33
IN = 1                              # the one class that is kept

NO_ERROR, FORMAT_ERROR, SERVER_FAILURE, NO_SUCH_NAME, NOT_IMPLEMENTED, REFUSED = 0, 1, 2, 3, 4, 5

# The parts of RDATA that has names in it (RFC 1035 3.3, RFC 2782): a number of octets, or a name.
SHAPES = {rtype: ("name",) for rtype in (NS, 3, 4, CNAME, 7, 8, 9, PTR)}
SHAPES[SOA] = ("name", "name", 20)
SHAPES[MINFO] = ("name", "name")
SHAPES[MX] = (2, "name")
SHAPES[SRV] = (6, "name")


def is_data_type(rtype):
    """Whether data can have the type: not 0, not OPT, none of the types for questions alone (RFC 6895 3.1)."""
    return rtype not in (0, 41) and not 128 <= rtype <= 255
