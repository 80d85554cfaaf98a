# VERSION: what JDOC_VERSION of c/jdoc.h says.
VERSION := $(shell sed -n 's/^.define JDOC_VERSION  *"\(.*\)"/\1/p' $(dir $(abspath $(lastword $(MAKEFILE_LIST))))c/jdoc.h)
