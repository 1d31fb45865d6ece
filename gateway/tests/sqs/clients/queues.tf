# Queues of both kinds, each with a dead-letter queue, as a configuration of Terraform.

terraform {
  required_providers {
    aws = {
      source = "hashicorp/aws"
    }
  }
}

variable "endpoint" {
  type = string
}

provider "aws" {
  region = "us-east-1"

  endpoints {
    sqs = var.endpoint
    sts = var.endpoint
  }
}

locals {
  suffixes = {
    fifo     = ".fifo"
    standard = ""
  }
}

resource "aws_sqs_queue" "dead" {
  for_each = local.suffixes

  name                      = "dead-${each.key}${each.value}"
  fifo_queue                = each.key == "fifo" ? true : null
  message_retention_seconds = 1209600

  redrive_allow_policy = jsonencode({
    redrivePermission = "byQueue"
    sourceQueueArns   = ["arn:aws:sqs:us-east-1:000000000000:orders-${each.key}${each.value}"]
  })
}

resource "aws_sqs_queue" "orders" {
  for_each = local.suffixes

  name                              = "orders-${each.key}${each.value}"
  fifo_queue                        = each.key == "fifo" ? true : null
  content_based_deduplication       = each.key == "fifo" ? true : null
  deduplication_scope               = each.key == "fifo" ? "messageGroup" : null
  fifo_throughput_limit             = each.key == "fifo" ? "perMessageGroupId" : null
  delay_seconds                     = 5
  visibility_timeout_seconds        = 60
  receive_wait_time_seconds         = 20
  max_message_size                  = 2048
  kms_master_key_id                 = "alias/aws/sqs"
  kms_data_key_reuse_period_seconds = 600

  redrive_policy = jsonencode({
    deadLetterTargetArn = aws_sqs_queue.dead[each.key].arn
    maxReceiveCount     = 4
  })

  tags = {
    kind = each.key
    team = "shop"
  }
}

resource "aws_sqs_queue_policy" "dead" {
  for_each = local.suffixes

  queue_url = aws_sqs_queue.dead[each.key].url

  policy = jsonencode({
    Version = "2012-10-17"
    Statement = [{
      Sid       = "shop"
      Effect    = "Allow"
      Principal = "*"
      Action    = "sqs:ReceiveMessage"
      Resource  = aws_sqs_queue.dead[each.key].arn
    }]
  })
}
