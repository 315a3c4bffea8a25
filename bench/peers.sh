#!/usr/bin/env bash
# Keeps a folder by examples/backup_folder.sh on four clouds (`serve` processes over the loopback), by restic and by borg, which are
# Debian's packages, in turn: peers.sh [FOLDER], /usr/include where it isn't given. Three days: the folder as it is; the same again; and with
# changes, one file of a hundred rewritten in its middle. Then the last day comes back, from three of the four clouds, and is compared.
# Of each the processor's seconds of all processes, the seconds, and the bytes that are kept. restic and borg keep one repository in a
# folder, compressed as they do it by themselves and encrypted: one copy, where the clouds keep four thirds and one of them may be lost.
# shellcheck source=build.sh
. "$(dirname "$0")/build.sh"
programs
for tool in restic borg; do
    command -v "$tool" > "$work/log" || { echo "$tool isn't there: apt-get install restic borgbackup" >&2; exit 1; }
done
cp -a "${1:-/usr/include}" "$work/folder"
python3 - "$cdstore" "$work" "$top" <<'PY'
import os, random, resource, subprocess, sys, time
from measure import Cloud, size, spent
program, work, top = sys.argv[1:]
folder = f"{work}/folder"
os.environ.update(RESTIC_PASSWORD="p", RESTIC_CACHE_DIR=f"{work}/cache", BORG_PASSPHRASE="p", BORG_BASE_DIR=f"{work}/borg_base", CDSTORE=program,
                  BORG_RELOCATED_REPO_ACCESS_IS_OK="yes")
random.seed(1)


def run(words, where=None):
    """Runs a command and all that it starts: its processor seconds, and its seconds."""
    before, begun = resource.getrusage(resource.RUSAGE_CHILDREN), time.monotonic()
    ran = subprocess.run([str(word) for word in words], cwd=where, capture_output=True, text=True)
    if ran.returncode:
        raise SystemExit(f"{words} ended with status {ran.returncode}: {ran.stdout[-300:]}{ran.stderr[-300:]}")
    after = resource.getrusage(resource.RUSAGE_CHILDREN)
    return after.ru_utime + after.ru_stime - before.ru_utime - before.ru_stime, time.monotonic() - begun


class Clouds:
    """Four clouds, each a process of its own."""
    name = "cdstore"

    def __init__(self):
        self.clouds = [Cloud(program, f"{work}/provider{cloud}", cloud, 4294967295) for cloud in range(4)]

    def all(self, words, count):
        before = sum(spent(cloud.process) for cloud in self.clouds)
        used, took = run([*words, *(cloud.addr for cloud in self.clouds[4 - count:])])
        return used + sum(spent(cloud.process) for cloud in self.clouds) - before, took

    def keep(self, day):
        return self.all([f"{top}/examples/backup_folder.sh", folder, f"{work}/list", 1, day], 4)

    def bring(self, to, day):
        return self.all([f"{top}/examples/restore_folder.sh", to, 1, day], 3)

    def kept(self):
        return sum(size(f"{work}/provider{cloud}") for cloud in range(4))


class Restic:
    name = "restic"
    words = ["restic", "--repo", f"{work}/restic", "--quiet"]

    def __init__(self):
        run([*self.words, "init"])

    def keep(self, day):
        return run([*self.words, "backup", "."], folder)

    def bring(self, to, day):
        return run([*self.words, "restore", "latest", "--target", to])

    def kept(self):
        return size(f"{work}/restic")


class Borg:
    name = "borg"
    repository = f"{work}/borg"

    def __init__(self):
        run(["borg", "init", "--encryption", "repokey", self.repository])

    def keep(self, day):
        return run(["borg", "create", f"{self.repository}::day{day}", "."], folder)

    def bring(self, to, day):
        os.mkdir(to)
        return run(["borg", "extract", f"{self.repository}::day{day}"], to)

    def kept(self):
        return size(self.repository)


def change():
    """Of each hundredth file twenty bytes in the middle become others."""
    files = sorted(os.path.join(place, name) for place, _, names in os.walk(folder) for name in names)
    for path in random.sample([path for path in files if not os.path.islink(path) and os.path.getsize(path) > 20], len(files) // 100):
        with open(path, "r+b") as file:
            file.seek(os.path.getsize(path) // 2)
            file.write(os.urandom(20))


tools = [Clouds(), Restic(), Borg()]
rows = {tool.name: [] for tool in tools}
try:
    for day in (1, 2, 3):
        if day == 3:
            change()
        for tool in tools:
            rows[tool.name].append((f"day {day}", *tool.keep(day), tool.kept()))
    for tool in tools:
        to = f"{work}/back_{tool.name}"
        rows[tool.name].append(("back", *tool.bring(to, 3), tool.kept()))
        run(["diff", "-r", "--no-dereference", folder, to])
finally:
    for cloud in tools[0].clouds:
        cloud.kill()
files = sum(len(names) for _, _, names in os.walk(folder))
length = sum(os.lstat(os.path.join(place, name)).st_size for place, _, names in os.walk(folder) for name in names)
print(f"a folder of {files} files and {length / 1e6:.1f} MB; processor seconds, seconds, MB that are kept")
for name, found in rows.items():
    print(f"{name:8}", *(f"{what}: {used:.2f} {took:.2f} {kept / 1e6:.1f}" for what, used, took, kept in found), sep="  ")
PY
