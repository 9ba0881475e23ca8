# What mmdebstrap has made of Debian's packages.
FROM scratch
ADD base.tar /
