# A front with its server (tools/keep), of the Debian packages. OCI has no field for a check, so compose.yaml and kubernetes/ have it:
# http://127.0.0.1:9402/healthz. At TERM it takes snapshots, which may last ten seconds: let whoever ends it wait 30.
FROM localhost/ljserve-base
COPY *.deb install /packages/
RUN ["/bin/sh", "/packages/install"]
USER 400:400
EXPOSE 4000
VOLUME /var/lib/ljserve
STOPSIGNAL SIGTERM
ENTRYPOINT ["/usr/bin/ljserve-keep"]
CMD ["0.0.0.0:4000", "/var/lib/ljserve", "--log", "-", "--metrics", "0.0.0.0:9402", "--", "/usr/bin/ljserve", "serve", "--users", "/etc/ljserve/users", "--workers", "4", "--pool", "queue"]
