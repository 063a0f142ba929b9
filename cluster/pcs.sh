#!/bin/sh
# By pcs, the cluster of corosync.conf and what remus.xml says: docs/CLUSTER.md. Put your own addresses and fence devices in the place of
# those here. Before it, on both hosts: pcs cluster destroy, and passwd hacluster; and on this one: pcs host auth one two
set -e
pcs cluster setup remus one addr=192.168.100.1 addr=192.168.101.1 two addr=192.168.100.2 addr=192.168.101.2 \
    totem token=1000 consensus=100 quorum wait_for_all=1 --enable --start --wait
pcs property set stonith-enabled=true no-quorum-policy=freeze priority-fencing-delay=3s stonith-timeout=60s \
    stonith-max-attempts=INFINITY
pcs property set transition-delay=100ms --force        # pcs itself knows whole seconds alone
pcs stonith create fence-one fence_ipmilan ip=192.168.100.11 username=fence password_script=/etc/remus/fence-password \
    pcmk_host_list=one pcmk_host_check=static-list op monitor interval=60s
pcs stonith create fence-two fence_ipmilan ip=192.168.100.12 username=fence password_script=/etc/remus/fence-password \
    pcmk_host_list=two pcmk_host_check=static-list op monitor interval=60s
pcs resource create pair ocf:remus:pair config=/etc/remus/host.toml \
    op start timeout=20s op stop timeout=20s on-fail=fence op promote timeout=20s on-fail=demote op demote timeout=20s \
    op notify timeout=20s op monitor role=Promoted interval=1s timeout=20s on-fail=demote \
    op monitor role=Unpromoted interval=2s timeout=20s \
    meta priority=10 migration-threshold=0 \
    promotable promoted-max=1 clone-max=2 clone-node-max=1 notify=true interleave=true
pcs constraint location pair-clone rule constraint-id=pair-scored role=Promoted score=-INFINITY not_defined master-pair
pcs resource defaults update resource-stickiness=1
# To the system's log; by `pcs alert recipient add pair-alert value=/usr/local/bin/page-me` to your own program too.
pcs alert create path=/usr/lib/remus/cluster/alert id=pair-alert
