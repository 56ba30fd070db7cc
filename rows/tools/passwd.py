"""The names of users by their numbers, slowly, as the lines of passwd(5) give them."""

LARGEST = 16777216                # the bytes of a file of users
MOST = 2 ** 32 - 1


def number_of(field):
    """The number of a user that a field says: digits, below 2^32."""
    if not field or any(byte not in b'0123456789' for byte in field):
        return None
    number = sum((byte - ord('0')) * 10 ** place for place, byte in enumerate(reversed(field)))
    return number if number <= MOST else None


def user_of(line):
    """The number and the name of a line: seven fields, a name that is not empty, and a number."""
    fields = line.split(b':')
    if len(fields) != 7 or not fields[0] or number_of(fields[2]) is None:
        return None
    return number_of(fields[2]), fields[0]


def name_in(passwd, uid):
    """The name of a number: that of the first line of this user, or none."""
    return next((name for number, name in filter(None, map(user_of, passwd.split(b'\n'))) if number == uid), None)


def fault_of(passwd):
    """What is said of a file of users that is refused: there is none, or it is too large."""
    if passwd is None:
        return 'cannot be opened'
    return 'no file of users' if len(passwd) > LARGEST else None
