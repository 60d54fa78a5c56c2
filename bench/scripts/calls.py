# what calls.clj does
def mix(a, b):
    return (a * 31 + b) % 1000003


def turn(acc, i):
    return mix(acc, i // 3)


def main():
    i, acc = 0, 0
    while i < @N@:
        i, acc = i + 1, turn(acc, i)
    print(acc)


main()
