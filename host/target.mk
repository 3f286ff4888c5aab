# The library is for x86-64. On another machine the programs are built with a cross compiler and run through an emulator, RUN. The address sanitizer is not tried
# there: what it maps fills the memory of the machine before the emulator gives up.
ifeq ($(shell uname -m),x86_64)
CC ?= cc
CXX ?= c++
RUN ?=
SANITIZERS ?= address,undefined
else
ifeq ($(origin CC),default)
CC := x86_64-linux-gnu-gcc
endif
ifeq ($(origin CXX),default)
CXX := x86_64-linux-gnu-g++
endif
RUN ?= qemu-x86_64 -L /usr/x86_64-linux-gnu
SANITIZERS ?= undefined
endif
