#!/usr/bin/env bash
# Proves, tests and runs everything in this repository.
cd "$(dirname "$0")" && exec rt ci
