# nfs3canon, its tools and tcpdump on Debian, of the release that is in the folder of the build:
#   make dist OUT=FOLDER
#   podman build -t nfs3canon -f Containerfile FOLDER
ARG BASE=docker.io/library/debian:12-slim
FROM $BASE
RUN apt-get update && \
    apt-get install -y --no-install-recommends python3 tcpdump xz-utils && \
    rm -rf /var/lib/apt/lists/*
COPY nfs3canon-*-linux-x86_64.tar.xz /tmp/
RUN tar -xJf /tmp/nfs3canon-*.tar.xz -C /usr/local --strip-components=1 && rm /tmp/nfs3canon-*.tar.xz
