module rclustertest

go 1.19
