"""The fixture `lbserver`, where the package is not installed."""

pytest_plugins = ["station.pytest_plugin"]
