import subprocess

live = ["./live", "examples/registry/registry"]
program = subprocess.Popen(live, stdin=subprocess.PIPE, stdout=subprocess.PIPE, text=True)


def ask(line):
    """Types a line, and an ECHO behind it, whose answer ends the answers to the line."""
    print(line, "ECHO .", sep="\n", file=program.stdin, flush=True)
    answers = []
    while (answer := program.stdout.readline().rstrip("\n")) != ".":
        answers.append(answer)
    return answers


ask("IN TERM1 KDCSIGN CLERK,INK")
for word in ["ENTER", "GRACE", "YORK", "YES"]:
    print(ask("IN TERM1 " + word))
program.stdin.close()
print("status", program.wait())
