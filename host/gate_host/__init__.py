"""gate-host: guards the main branch of a bare git repository with the bot `gate`."""

VERSION = "1.0.0"
