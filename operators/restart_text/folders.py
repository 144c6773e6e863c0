"""A folder with settings and reports, and what has changed in it."""
import os

SETTINGS = ("settings.txt", "settings.bin")


def files_in(folder):
    """The settings and the reports of the folder, these in the order in which they were written, each with time and size. Reports
    stand in its folder reports, or where it has none, in itself."""
    settings = [one for one in (stamped(path) for path in settings_paths(folder)) if one]
    return tuple(settings[:1] + reports_in(place_of(folder)))


def reports_in(place):
    try:
        names = [name for name in os.listdir(place) if name.endswith(".bin") and not name.startswith(".") and name not in SETTINGS]
    except OSError:
        names = []
    reports = [one for one in (stamped(os.path.join(place, name)) for name in names) if one]
    return sorted(reports, key=lambda one: (one[1], one[0]))


def paths_in(folder):
    """The paths of the settings and the reports, or nothing where there are no settings."""
    paths = [path for path, *_ in files_in(folder)]
    return paths if paths and os.path.basename(paths[0]) in SETTINGS else []


def settings_paths(folder):
    return [os.path.join(folder, name) for name in SETTINGS]


def place_of(folder):
    """Where a folder's reports stand."""
    inner = os.path.join(folder, "reports")
    return inner if os.path.isdir(inner) else folder


def stamped(path):
    """The path with the file's time and size, or nothing where it is gone meanwhile."""
    try:
        state = os.stat(path)
    except OSError:
        return None
    return path, state.st_mtime_ns, state.st_size


def news(before, now):
    """The paths that appeared, that changed and that are gone since an earlier look."""
    old, new = ({path: rest for path, *rest in files} for files in (before, now))
    return {"appeared": sorted(new.keys() - old.keys()), "changed": sorted(path for path in new.keys() & old.keys() if new[path] != old[path]),
            "gone": sorted(old.keys() - new.keys())}
