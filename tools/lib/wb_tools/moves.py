"""The moves of operators (docs/PROTOCOL.md, "Moves"), for commands that say what would come of one before it is sent:
the states from which each leads, and the state to which it does. A build priority moves nothing."""

MOVES = {
    "give-back": (
        "Building Built Uploaded Dep-Wait BD-Uninstallable Failed Not-For-Us Build-Attempted".split(), "Needs-Build",
    ),
    "dep-wait": ("Needs-Build Building BD-Uninstallable Failed Build-Attempted".split(), "Dep-Wait"),
    "fail": ("Needs-Build Building Built Dep-Wait BD-Uninstallable Build-Attempted".split(), "Failed"),
    "not-for-us": ("Needs-Build Building Dep-Wait BD-Uninstallable Failed Build-Attempted".split(), "Not-For-Us"),
    "rebuild": (["Installed"], "Needs-Build"),
}
