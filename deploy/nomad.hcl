# csid and its front as a CSI controller plugin of Nomad. The folder of the allocation, /alloc, is shared by the two tasks. Both run as
# root without any capability, since Nomad's folder /csi is root's.
job "pools-controller" {
  # Where the clients are that may run it. Nomad wants it before its version 1.5.
  datacenters = ["dc1"]
  type        = "service"

  group "controller" {
    count = 1

    # The port of the front's metrics.
    network {
      port "metrics" {
        to = 9809
      }
    }

    # By a Probe through the front to csid. Where six in a row fail, which takes a minute, both are started again.
    service {
      name     = "csid-front"
      port     = "metrics"
      provider = "nomad"

      check {
        name     = "front"
        task     = "front"
        type     = "http"
        path     = "/healthz"
        interval = "10s"
        timeout  = "10s"

        check_restart {
          limit = 6
          grace = "10s"
        }
      }

      check {
        name     = "csid"
        task     = "csid"
        type     = "http"
        path     = "/healthz"
        interval = "10s"
        timeout  = "10s"

        check_restart {
          limit = 6
          grace = "10s"
        }
      }
    }

    # The volumes that csid keeps: a host volume of the client that runs this group.
    volume "tables" {
      type   = "host"
      source = "csid"
    }

    task "csid" {
      driver = "docker"

      lifecycle {
        hook    = "prestart"
        sidecar = true
      }

      config {
        image      = "registry.example.org/csid:1"
        entrypoint = ["tini", "--"]
        command    = "sh"
        # Where NEW says so, a file is made where there is none. Otherwise csid says that there is none, and ends. What is in a file stays.
        args       = ["-c", "test x$NEW != xyes || csid pipe --tables /tables/volumes.db --config /local/config.toml </dev/null; rm -f /alloc/csid.sock && exec csid serve --socket /alloc/csid.sock --tables /tables/volumes.db --existing --config /local/config.toml --idle 60"]

        readonly_rootfs = true
        cap_drop        = ["all"]
        security_opt    = ["no-new-privileges"]
      }

      user = "root"

      # The first start makes the file of volumes. Take this away after it, and never put it back where volumes exist: over a new file csid
      # would give their numbers again.
      env {
        NEW = "yes"
      }

      resources {
        cpu        = 200
        memory     = 256
        memory_max = 1024
      }

      volume_mount {
        volume      = "tables"
        destination = "/tables"
      }

      template {
        destination = "local/config.toml"
        data        = <<TOML
name = "pools.example.org"
vendor_version = "1.0.0"
default_bytes = 1073741824
greatest_bytes = 1099511627776

[[pool]]
name = "p1"
bytes = 10995116277760

# Where volumes are attached, one for each client that runs the node plugin: the id is what that answers to NodeGetInfo.
[[node]]
id = "client-1"
max_volumes = 100
TOML
      }
    }

    task "front" {
      driver = "docker"

      config {
        image      = "registry.example.org/csid:1"
        entrypoint = ["tini", "--"]
        command    = "front"
        args       = ["--csid", "/alloc/csid.sock", "--control", "/alloc/control.sock", "--log-changes", "--grace", "20s", "--metrics", ":9809"]
        ports      = ["metrics"]

        readonly_rootfs = true
        cap_drop        = ["all"]
        security_opt    = ["no-new-privileges"]
      }

      user         = "root"
      kill_timeout = "30s"

      env {
        CSI_ENDPOINT = "unix:///csi/csi.sock"
        GOMEMLIMIT   = "400MiB"
        # Where csictl finds the control socket (nomad alloc exec).
        CSID_SOCKET = "/alloc/control.sock"
      }

      resources {
        cpu        = 200
        memory     = 128
        memory_max = 512
      }

      csi_plugin {
        id        = "pools"
        type      = "controller"
        mount_dir = "/csi"
      }
    }
  }
}
