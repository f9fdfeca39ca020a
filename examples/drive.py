import subprocess
host = subprocess.Popen(["./bfqhost", "sim"], stdin=subprocess.PIPE, stdout=subprocess.PIPE, text=True, bufsize=1)
def ask(line):
    host.stdin.write(line + "\n")
    return host.stdout.readline().split()
ask("attach 0 0 4"), ask("read 0 1 5 2")
_, tag, issue, *_ = ask("dispatch")
print(*ask(f"work {tag} {issue}"), *ask("reap 0 1"))
