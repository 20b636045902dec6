"""What the scripts that write dictd's files share."""

DIGITS = "ABCDEFGHIJKLMNOPQRSTUVWXYZabcdefghijklmnopqrstuvwxyz0123456789+/"


def spelled(number):
    """The number in dictd's base 64."""
    text = DIGITS[number % 64]
    while number >= 64:
        number //= 64
        text = DIGITS[number % 64] + text
    return text
