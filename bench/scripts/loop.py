# what loop.clj does
def main():
    i, acc = 0, 0
    while i < @N@:
        i, acc = i + 1, (acc * 31 + i // 3 + 7) % 1000003
    print(acc)


main()
