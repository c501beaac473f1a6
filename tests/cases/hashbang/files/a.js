#!/usr/bin/env shadowrealm
print("a");