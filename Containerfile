# cg in a container: `tools/make-packages`, then `podman build -t cg .` and `echo 'value {2,1|0}' | podman run -i --rm cg`.
# It is written and not built by any check, since no engine is at hand there.
FROM debian:stable-slim
COPY dist/cg_*_amd64.deb dist/python3-cgcalc_*_all.deb /tmp/
RUN apt-get update \
 && apt-get install --yes --no-install-recommends /tmp/cg_*_amd64.deb /tmp/python3-cgcalc_*_all.deb \
 && rm -rf /tmp/*.deb /var/lib/apt/lists/*
USER nobody
ENTRYPOINT ["cg"]
